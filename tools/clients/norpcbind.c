/* A library that NFS-Ganesha is started with: it says that a portmapper was told of each service, so that it starts without one. */
#include <stdbool.h>

bool rpcb_set(void) { return true; }

bool rpcb_unset(void) { return true; }
