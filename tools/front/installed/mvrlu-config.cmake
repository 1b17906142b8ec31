# The library mvrlu for CMake: find_package(mvrlu) gives the target mvrlu::mvrlu, for C and for C++.
#     find_package(mvrlu @version@ REQUIRED)
#     target_link_libraries(program PRIVATE mvrlu::mvrlu)
cmake_minimum_required(VERSION 3.13...3.25)
include(CMakeFindDependencyMacro)
find_dependency(Threads)

if(NOT TARGET mvrlu::mvrlu)
    get_filename_component(mvrlu_prefix "${CMAKE_CURRENT_LIST_DIR}/../../.." ABSOLUTE)
    add_library(mvrlu::mvrlu STATIC IMPORTED)
    set_target_properties(mvrlu::mvrlu PROPERTIES
        IMPORTED_LOCATION "${mvrlu_prefix}/lib/libmvrlu.a"
        INTERFACE_INCLUDE_DIRECTORIES "${mvrlu_prefix}/include"
        INTERFACE_LINK_LIBRARIES Threads::Threads)
    unset(mvrlu_prefix)
endif()
