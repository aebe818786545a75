#define OWN "r"
#define OTHERS "l"
#include "lender.h"
