/* Robots measured with a ruler: millimetres and a tolerance of each number in, whether two robots touch out. Where it
   depends on the tolerance, two robots that touch and two that do not.
       ./install
       export PKG_CONFIG_PATH=$PWD/target/netxurbil/lib/pkgconfig
       flags="$(pkg-config --cflags --libs netxurbil) -Wl,-rpath,$PWD/target/netxurbil/lib"
       cc examples/measured.c $flags -o target/measured */
#include "netxurbil.h"
#include <inttypes.h>
#include <stdio.h>

/* A reading of the ruler, and by how much it may be off. */
struct reading {
    int32_t millimetres, tolerance;
};

struct round_robot {
    struct reading x, y, radius;
};

struct square_robot {
    struct reading x, y, hx, hy;
};

/* The largest whole number that is not above so many thousandths. */
static int32_t floor_of(int32_t thousandths) { return thousandths / 1000 - (thousandths % 1000 < 0); }

/* A reading in whole 1/256 m, rounded outwards: what was measured is inside. */
static struct netxurbil_span span(struct reading ruler) {
    struct netxurbil_span whole = {floor_of(256 * (ruler.millimetres - ruler.tolerance)),
                                   -floor_of(-256 * (ruler.millimetres + ruler.tolerance))};
    return whole;
}

static struct netxurbil_measured_circle circle(struct round_robot robot) {
    struct netxurbil_measured_circle measured = {span(robot.x), span(robot.y), span(robot.radius)};
    return measured;
}

static struct netxurbil_measured_box box(struct square_robot robot) {
    struct netxurbil_measured_box measured = {span(robot.x), span(robot.y), span(robot.hx), span(robot.hy)};
    return measured;
}

static void show(const char *what, uint32_t refusal, uint32_t verdict) {
    static const char *const verdicts[] = {"no verdict", "surely touching", "surely apart", "either"};
    printf("%s: ", what);
    if (refusal == NETXURBIL_ACCEPTED)
        printf("%s\n", verdicts[verdict]);
    else
        printf("refused, number %" PRIu32 "\n", refusal);
}

/* A number of 1/256 m, as it is and in millimetres. */
static void show_number(const char *name, int32_t number) {
    printf(" %s %" PRId32 " (%.9g mm)", name, number, number * 1000 / 256.0);
}

static void show_circle(const char *name, struct netxurbil_whole_circle robot) {
    printf("  %s:", name);
    show_number("x", robot.x), show_number("y", robot.y), show_number("radius", robot.radius);
    printf("\n");
}

static void show_box(const char *name, struct netxurbil_whole_box robot) {
    printf("  %s:", name);
    show_number("x", robot.x), show_number("y", robot.y), show_number("hx", robot.hx), show_number("hy", robot.hy);
    printf("\n");
}

static void round_robots(const char *what, struct round_robot a, struct round_robot b) {
    struct netxurbil_circles_answer said = netxurbil_measured_circles(circle(a), circle(b));
    show(what, said.refusal, said.verdict);
    if (said.verdict != NETXURBIL_EITHER) return;
    show_circle("touching, a", said.touching.a), show_circle("touching, b", said.touching.b);
    show_circle("apart, a", said.apart.a), show_circle("apart, b", said.apart.b);
}

static void square_robots(const char *what, struct square_robot a, struct square_robot b) {
    struct netxurbil_boxes_answer said = netxurbil_measured_boxes(box(a), box(b));
    show(what, said.refusal, said.verdict);
    if (said.verdict != NETXURBIL_EITHER) return;
    show_box("touching, a", said.touching.a), show_box("touching, b", said.touching.b);
    show_box("apart, a", said.apart.a), show_box("apart, b", said.apart.b);
}

int main(void) {
    const struct round_robot pusher = {{0, 2}, {0, 2}, {150, 2}};
    struct round_robot other = {{270, 2}, {40, 2}, {150, 2}};
    round_robots("270 mm to the right", pusher, other);
    other.x.millimetres = 330;
    round_robots("330 mm to the right", pusher, other);
    /* one number may be off by a millimetre: there are two choices of whole numbers */
    const struct round_robot small = {{0, 0}, {0, 0}, {125, 0}}, large = {{376, 1}, {0, 0}, {250, 0}};
    round_robots("radii of 125 and 250 mm, 376 mm to the right, or one more or less", small, large);
    other.x.millimetres = 5000;
    round_robots("5 m to the right", pusher, other);

    const struct square_robot wedge = {{0, 2}, {0, 2}, {200, 2}, {150, 2}};
    struct square_robot lifter = {{380, 2}, {270, 2}, {200, 2}, {150, 2}};
    square_robots("270 mm up", wedge, lifter);
    lifter.y.millimetres = 330;
    square_robots("330 mm up", wedge, lifter);
    const struct square_robot low = {{0, 0}, {0, 0}, {250, 0}, {125, 0}};
    const struct square_robot high = {{500, 0}, {376, 1}, {250, 0}, {250, 0}};
    square_robots("half-widths of 125 and 250 mm, 376 mm up, or one more or less", low, high);
    lifter.hx.tolerance = -6;
    square_robots("a tolerance below 0", wedge, lifter);
    return 0;
}
