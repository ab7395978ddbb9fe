# The library as targets: Lovendak::lovendak is the shared one, Lovendak::lovendak_static the static one.
get_filename_component(_lovendak_libdir "${CMAKE_CURRENT_LIST_DIR}/../.." REALPATH)
get_filename_component(_lovendak_includedir "${_lovendak_libdir}/@TO_PREFIX@/include" REALPATH)

if(NOT TARGET Lovendak::lovendak)
  add_library(Lovendak::lovendak SHARED IMPORTED)
  set_target_properties(Lovendak::lovendak PROPERTIES
    IMPORTED_LOCATION "${_lovendak_libdir}/liblovendak.so.@INTERFACE@"
    IMPORTED_SONAME "liblovendak.so.@INTERFACE@"
    INTERFACE_INCLUDE_DIRECTORIES "${_lovendak_includedir}")

  add_library(Lovendak::lovendak_static STATIC IMPORTED)
  set_target_properties(Lovendak::lovendak_static PROPERTIES
    IMPORTED_LOCATION "${_lovendak_libdir}/liblovendak.a"
    INTERFACE_INCLUDE_DIRECTORIES "${_lovendak_includedir}")
endif()

# What c++/CMakeLists.txt has installed beside it, if anything: Lovendak::rpc and Lovendak::capnp-rpc, which stand on libcapnp.
if(EXISTS "${CMAKE_CURRENT_LIST_DIR}/LovendakRpcTargets.cmake" AND NOT TARGET Lovendak::rpc)
  find_package(PkgConfig QUIET)
  if(PKG_CONFIG_FOUND)
    pkg_check_modules(LOVENDAK_CAPNP QUIET IMPORTED_TARGET capnp-rpc>=0.9 capnp-rpc<0.10)
  endif()
  if(TARGET PkgConfig::LOVENDAK_CAPNP)
    include("${CMAKE_CURRENT_LIST_DIR}/LovendakRpcTargets.cmake")
  endif()
endif()

unset(_lovendak_libdir)
unset(_lovendak_includedir)
