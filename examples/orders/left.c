#define OWN "l"
#define OTHERS "r"
#include "lender.h"
