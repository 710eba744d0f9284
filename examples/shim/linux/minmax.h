#ifndef SHIM_MINMAX_H
#define SHIM_MINMAX_H
#define min(a, b) ({ typeof(a) min_a_ = (a); typeof(b) min_b_ = (b); min_a_ < min_b_ ? min_a_ : min_b_; })
#define max(a, b) ({ typeof(a) max_a_ = (a); typeof(b) max_b_ = (b); max_a_ > max_b_ ? max_a_ : max_b_; })
#define min_t(type, a, b) ({ type min_t_a_ = (a); type min_t_b_ = (b); min_t_a_ < min_t_b_ ? min_t_a_ : min_t_b_; })
#define max_t(type, a, b) ({ type max_t_a_ = (a); type max_t_b_ = (b); max_t_a_ > max_t_b_ ? max_t_a_ : max_t_b_; })
#define min3(a, b, c) min(min(a, b), c)
#define max3(a, b, c) max(max(a, b), c)
#define clamp(value, low, high) min(max(value, low), high)
#define clamp_t(type, value, low, high) min_t(type, max_t(type, value, low), high)
#define clamp_val(value, low, high) clamp_t(typeof(value), value, low, high)
#define swap(a, b) do { typeof(a) swapped_ = (a); (a) = (b); (b) = swapped_; } while (0)
#endif
