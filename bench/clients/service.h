/* The name of the service. */
#ifndef SERVICE_H
#define SERVICE_H

#include "checked.h"

#define SERVICE XOUS_SERVER("service")

#endif
