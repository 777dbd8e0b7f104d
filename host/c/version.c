/* The header's number as the library's: data alone, so all code of the library is proved code of crates/. */
#include "milecopper.h"
const char milecopper_version[] = MILECOPPER_VERSION;
