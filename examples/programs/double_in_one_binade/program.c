/* A sensor's characteristic in double precision, compiled without contraction to fused operations. */
double characteristic(double x) {
    double p = 1.1 * x;
    return p + 0.5;
}
