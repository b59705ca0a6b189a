#include <stddef.h>
#include <stdint.h>
#include <stdbool.h>
typedef struct { uint64_t a[6]; } Answer;
typedef struct { const void *p; size_t n; } S;
#define A(x) const void*x,size_t x##n
#define M(x) S s##x={x,x##n};
#ifdef SECTIONS
void rs(Answer*,S*,S*,S*,S*,S*,S*,S*,bool,S*,S*,S*,S*,S*) __asm__("dqi_read_sections");
Answer doorquill_read_sections(A(k),A(r),A(v),A(mi),A(ma),A(st),A(vr),bool b,A(i),A(e),A(va),A(ro),A(li)){Answer z;M(k)M(r)M(v)M(mi)M(ma)M(st)M(vr)M(i)M(e)M(va)M(ro)M(li) rs(&z,&sk,&sr,&sv,&smi,&sma,&sst,&svr,b,&si,&se,&sva,&sro,&sli);return z;}
void rl(Answer*,S*,S*,S*,S*,S*,bool,S*,S*,S*,S*,S*) __asm__("dqi_read_sections_lent");
Answer doorquill_read_sections_lent(A(k),A(r),A(v),A(ve),A(f),bool b,A(i),A(e),A(va),A(ro),A(li)){Answer z;M(k)M(r)M(v)M(ve)M(f)M(i)M(e)M(va)M(ro)M(li) rl(&z,&sk,&sr,&sv,&sve,&sf,b,&si,&se,&sva,&sro,&sli);return z;}
void tr(Answer*,S*,S*,S*) __asm__("dqi_time_rule");
Answer doorquill_time_rule(A(e),A(va),A(ke)){Answer z;M(e)M(va)M(ke) tr(&z,&se,&sva,&ske);return z;}
void ws(Answer*,S*,S*,S*,S*,S*,S*,S*,bool,S*,S*) __asm__("dqi_write_sections");
Answer doorquill_write_sections(A(k),A(r),A(v),A(mi),A(ma),A(st),A(vr),bool b,A(i),A(e)){Answer z;M(k)M(r)M(v)M(mi)M(ma)M(st)M(vr)M(i)M(e) ws(&z,&sk,&sr,&sv,&smi,&sma,&sst,&svr,b,&si,&se);return z;}
#endif
#ifdef CHANGES
void rc(Answer*,S*,S*,S*,S*,S*,S*,S*,S*,S*,S*,S*,S*) __asm__("dqi_read_changes");
Answer doorquill_read_changes(A(k),A(r),A(v),A(mi),A(ma),A(st),A(vr),A(i),A(e),A(va),A(ro),A(li)){Answer z;M(k)M(r)M(v)M(mi)M(ma)M(st)M(vr)M(i)M(e)M(va)M(ro)M(li) rc(&z,&sk,&sr,&sv,&smi,&sma,&sst,&svr,&si,&se,&sva,&sro,&sli);return z;}
#endif
#ifdef BACK
void rb(Answer*,S*,S*,S*,S*,S*,S*,S*,bool,S*,S*) __asm__("dqi_read_back");
Answer doorquill_read_back(A(k),A(r),A(v),A(mi),A(ma),A(st),A(vr),bool b,A(i),A(e)){Answer z;M(k)M(r)M(v)M(mi)M(ma)M(st)M(vr)M(i)M(e) rb(&z,&sk,&sr,&sv,&smi,&sma,&sst,&svr,b,&si,&se);return z;}
#endif
