// C++: members by this, references, and a static object's destructor that ends a mapping.
#include <openacc.h>

#include <cstdio>

struct held {
    int n = 4;
    int data[4] = {1, 2, 3, 4};
    int *p = data;

    void enter() {
#pragma acc enter data copyin(this[0:1])
    }
    void add(int k) {
#pragma acc parallel loop present(this[0:1])
        for (int i = 0; i < n; i++) {
            data[i] += k;
        }
    }
    void add_by_pointer(int k) {
#pragma acc parallel loop copy(this[0:1], p[0:4])
        for (int i = 0; i < 4; i++) {
            p[i] += k;
        }
    }
    void leave() {
#pragma acc exit data copyout(this[0:1])
    }
};

static struct ends {
    int a[2] = {5, 6};
    ends() { acc_copyin(a, sizeof a); }
    ~ends() {
        acc_delete(a, sizeof a);
        std::printf("ended, present %d\n", acc_is_present(a, sizeof a));
    }
} at_the_end;

static void twice(int &x, int (&list)[3]) {
#pragma acc parallel copy(x, list)
    {
        x *= 2;
        list[2] += x;
    }
}

int main() {
    held h;
    int x = 21, list[3] = {1, 2, 3};

    h.enter();
    h.add(10);
    std::printf("host %d\n", h.data[3]);
    h.leave();
    std::printf("host %d\n", h.data[3]);
    h.add_by_pointer(100);
    std::printf("host %d\n", h.data[3]);
    twice(x, list);
    std::printf("%d %d\n", x, list[2]);
    return 0;
}
