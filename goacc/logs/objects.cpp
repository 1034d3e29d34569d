// A method maps members of its object: the name is that of the object, also of one on the stack.
namespace space {
static double field[6];
}

struct simulation {
    double x[5];
    int n;

    __attribute__((noinline)) void run()
    {
#pragma acc enter data copyin(this[0:1])
#pragma acc update self(x[1:2])
#pragma acc exit data delete(this[0:1])
    }
};

static simulation global;

int main()
{
    simulation local = {{0}, 5};

#pragma acc enter data copyin(space::field)
#pragma acc exit data delete(space::field)
    global.run();
    local.run();
    return 0;
}
