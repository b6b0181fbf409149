/* The table of the exports of a build: the only symbol of the build's object. */
#include "builds.h"

#define NAMED(export) .export = export,

const struct build build = {EXPORTS(NAMED)};
