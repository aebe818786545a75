#define OWN LEFT
#include "user.h"
