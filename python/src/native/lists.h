/* The lists are made by tools/facts --write. */
#ifndef DURATION_STR_LISTS_H
#define DURATION_STR_LISTS_H

/* The flags for reading, in the order of their bits, and the parameters in the signatures of the
 * calls that take them */
#define OPTION_NAMES "no_calc", "lowercase", "cn_unit", "require_unit", "more_names"
#define OPTION_DEFAULTS "no_calc=False, lowercase=False, cn_unit=False, require_unit=False, more_names=False, default_unit='s'"
/* The names of the units as they are printed, in Latin-1, and as errors list them, in UTF-8 */
static const char *const unit_names[] = {"y", "q", "mon", "w", "d", "h", "min", "s", "ms", "\xb5s", "ns"};
static const char listed_units[] = "y, q, mon, w, d, h, min, s, ms, \xc2\xb5s or us, ns";
/* The same for the styles, and for the ways of rounding */
static const char *const style_names[] = {"short", "compact", "long"};
static const char listed_styles[] = "short, compact, long";
static const char *const rounding_names[] = {"down", "nearest", "up"};
static const char listed_roundings[] = "down, nearest, up";

#endif
