/* stdbool.h of C and C++: the toolchain's clang comes without headers. */
#ifndef RQ_STDBOOL_H
#define RQ_STDBOOL_H

#ifndef __cplusplus
#define bool _Bool
#define true 1
#define false 0
#endif

#endif
