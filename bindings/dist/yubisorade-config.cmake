# find_package(yubisorade 1.0 CONFIG REQUIRED) makes the target yubisorade::yubisorade: the library and its header.
if(NOT TARGET yubisorade::yubisorade)
  get_filename_component(yubisorade_folder "${CMAKE_CURRENT_LIST_DIR}/../../.." ABSOLUTE)
  add_library(yubisorade::yubisorade STATIC IMPORTED)
  set_target_properties(yubisorade::yubisorade PROPERTIES
    IMPORTED_LOCATION "${yubisorade_folder}/lib/libtablet.a"
    IMPORTED_LINK_INTERFACE_LANGUAGES C
    INTERFACE_INCLUDE_DIRECTORIES "${yubisorade_folder}/include")
  unset(yubisorade_folder)
endif()
