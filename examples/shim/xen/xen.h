#ifndef SHIM_XEN_XEN_H
#define SHIM_XEN_XEN_H
#define xen_domain() 0
#endif
