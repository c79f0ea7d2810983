# find_package(wattlerugby), then target_link_libraries(... wattlerugby::wattlerugby)
get_filename_component(_wattlerugby_prefix "${CMAKE_CURRENT_LIST_DIR}/../../.." ABSOLUTE)
if(NOT TARGET wattlerugby::wattlerugby)
  add_library(wattlerugby::wattlerugby STATIC IMPORTED)
  set_target_properties(wattlerugby::wattlerugby PROPERTIES
    IMPORTED_LOCATION "${_wattlerugby_prefix}/lib/libwattlerugby.a"
    INTERFACE_INCLUDE_DIRECTORIES "${_wattlerugby_prefix}/include")
endif()
unset(_wattlerugby_prefix)
