# The package for CMake: find_package(robequarry-@target@) defines the target robequarry::robequarry, with the words by which a compiler
# compiles for @target@. Where the library comes with memcpy, memmove and memset for bare metal, robequarry::memory has them. A project
# whose C compiler compiles for another processor does not find the package.
get_filename_component(_robequarry_prefix "${CMAKE_CURRENT_LIST_DIR}/../../.." ABSOLUTE)
set(_robequarry_lib "${_robequarry_prefix}/lib/@target@")
set(_robequarry_words "@words@")
set(_robequarry_link "@link@")
set(robequarry-@target@_MODULE_SHA256 "@module@")

# The project's own words come last, so that they count.
if(NOT DEFINED robequarry-@target@_FITS AND CMAKE_C_COMPILER_LOADED)
  set(_robequarry_flags "${CMAKE_C_FLAGS}")
  set(_robequarry_type "${CMAKE_TRY_COMPILE_TARGET_TYPE}")
  set(CMAKE_C_FLAGS "${_robequarry_words} ${CMAKE_C_FLAGS}")
  set(CMAKE_TRY_COMPILE_TARGET_TYPE STATIC_LIBRARY)
  file(WRITE "${CMAKE_BINARY_DIR}/CMakeFiles/robequarry-@target@.c"
    "#include \"${_robequarry_lib}/robequarry_target.h\"\nint robequarry_fits;\n")
  try_compile(robequarry-@target@_FITS "${CMAKE_BINARY_DIR}" "${CMAKE_BINARY_DIR}/CMakeFiles/robequarry-@target@.c")
  set(CMAKE_C_FLAGS "${_robequarry_flags}")
  set(CMAKE_TRY_COMPILE_TARGET_TYPE "${_robequarry_type}")
  if(NOT _robequarry_type)
    unset(CMAKE_TRY_COMPILE_TARGET_TYPE)
  endif()
  unset(_robequarry_flags)
  unset(_robequarry_type)
endif()

if(DEFINED robequarry-@target@_FITS AND NOT robequarry-@target@_FITS)
  set(robequarry-@target@_FOUND FALSE)
  set(robequarry-@target@_NOT_FOUND_MESSAGE "robequarry-@target@ is for @target@, and this project is compiled for another processor")
elseif(NOT TARGET robequarry::robequarry)
  separate_arguments(_robequarry_words UNIX_COMMAND "${_robequarry_words}")
  separate_arguments(_robequarry_link UNIX_COMMAND "${_robequarry_link}")
  add_library(robequarry::robequarry STATIC IMPORTED)
  set_target_properties(robequarry::robequarry PROPERTIES
    IMPORTED_LOCATION "${_robequarry_lib}/librobequarry.a"
    INTERFACE_COMPILE_OPTIONS "${_robequarry_words};SHELL:-include \"${_robequarry_lib}/robequarry_target.h\""
    INTERFACE_LINK_OPTIONS "${_robequarry_words};${_robequarry_link}"
    INTERFACE_INCLUDE_DIRECTORIES "${_robequarry_prefix}/include")
  if(EXISTS "${_robequarry_lib}/librobequarry_memory.a")
    add_library(robequarry::memory STATIC IMPORTED)
    set_target_properties(robequarry::memory PROPERTIES
      IMPORTED_LOCATION "${_robequarry_lib}/librobequarry_memory.a")
  endif()
endif()

unset(_robequarry_words)
unset(_robequarry_link)
unset(_robequarry_lib)
unset(_robequarry_prefix)
