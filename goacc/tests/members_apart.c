/* Section 2.7.1: each member of a structure has a clause, a counter and bytes of its own, and the others are the
   host's. A kernel finds them where they are in the structure. */
#include "show.h"

typedef struct three {
    int a, b, c;
} three;

typedef struct deep {
    int n, *p, *q;
} deep;

static void in_regions(void)
{
    three s = {1, 2, 3}, t = {1, 2, 3}, u = {1, 2, 3};

#pragma acc data copy(s.a, s.c)
    s.b = 42;
    printf("between: %d\n", s.b);
#pragma acc data copyin(t.a) copyout(t.c)
    t.a = 7;
    printf("copied in alone: %d\n", t.a);
#pragma acc data no_create(u.a) copy(u.c)
    printf("present: %d %d\n", acc_is_present(&u.a, sizeof u.a), acc_is_present(&u.c, sizeof u.c));
}

static void one_by_one(void)
{
    three s = {1, 2, 3};

#pragma acc enter data copyin(s.a, s.c)
#pragma acc parallel present(s.a, s.c)
    s.c += s.a;
    s.b = 42;
#pragma acc exit data delete(s.a)
#pragma acc update self(s.c)
    printf("%d %d %d, present: %d %d %d\n", s.a, s.b, s.c, acc_is_present(&s.a, sizeof s.a),
           acc_is_present(&s.b, sizeof s.b), acc_is_present(&s.c, sizeof s.c));
#pragma acc exit data delete(s.c)
#pragma acc enter data copyin(s.c)
#pragma acc enter data copyin(s.a)
#pragma acc parallel present(s.a, s.c)
    s.c += s.a;
#pragma acc exit data copyout(s.a, s.c)
    printf("%d %d %d\n", s.a, s.b, s.c);
}

static void in_a_mapped_one(void)
{
    int x[4] = {1, 2, 3, 4}, y[4] = {5, 6, 7, 8};
    deep v = {3, x, y};

#pragma acc enter data copyin(v)
#pragma acc enter data copyin(v.n, v.p[:4], v.q[:4])
#pragma acc parallel present(v)
    v.n = 99;
#pragma acc exit data copyout(v.p[:4])
#pragma acc exit data copyout(v.q[:4])
#pragma acc exit data copyout(v.n)
    printf("present: %d\n", acc_is_present(&v, sizeof v));
#pragma acc exit data copyout(v.n) finalize
    printf("n %d\n", v.n);
}

int main(void)
{
    in_regions();
    one_by_one();
    in_a_mapped_one();
    return 0;
}
