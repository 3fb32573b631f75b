/* Sine and cosine for a whole process: what set_turn was last given. Built as a shared library that comes before the
   mathematical one, so that the references' turned box takes any sine and cosine. */
static float given_sine, given_cosine;

void set_turn(float sine, float cosine) {
    given_sine = sine;
    given_cosine = cosine;
}
float sinf(float x) { return (void)x, given_sine; }
float cosf(float x) { return (void)x, given_cosine; }
void sincosf(float x, float *sine, float *cosine) {
    (void)x;
    *sine = given_sine;
    *cosine = given_cosine;
}
