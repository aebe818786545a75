#define OWN RIGHT
#include "user.h"
