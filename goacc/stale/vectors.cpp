// The elements of a vector have no name of their own.
#include <cstdio>
#include <vector>

struct field {
    std::vector<int> cells = std::vector<int>(64);

    void step()
    {
        int *at = cells.data();

#pragma acc parallel loop present(at[0:64])
        for (int i = 0; i < 64; i++) {
            at[i] += 2;
        }
    }

    int sum(int n)
    {
        int all = 0;

        for (int i = 0; i < n; i++) {
            all += cells[i];
        }
        return all;
    }
};

int main()
{
    field f;
    int *at = f.cells.data();

#pragma acc enter data copyin(at[0:64])
    f.step();
#pragma acc update self(at[0:32])
    std::printf("%d\n", f.sum(32));
    std::printf("%d\n", f.sum(64));
#pragma acc exit data copyout(at[0:64])
    std::printf("%d\n", f.sum(64));
    return 0;
}
