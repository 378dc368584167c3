/* A plain fuel sheet in 64-bit integers, for comparing speed. Reads the coefficients as `opfcheck` prints them from the
   file named first, and a script from standard input. Well-formed lines only; the bench day only. */
#include <stdint.h>
#include <stdio.h>
#include <stdlib.h>
#include <string.h>
typedef int64_t I;
static I v_[64];
static char n_[64][16];
static int count_;
static int jet;
static I get(const char *n) {
    for (int i = 0; i < count_; i++) if (!strcmp(n_[i], n)) return v_[i];
    exit(2);
}
static I stall[5], cd0[5], cd2[5], mn, mx, ceil_, wing, gear, c1, c2, c3, c4, c5, dlow, dhigh, dlev, dap, dld, f1, f2, f3, f4, cr;
static const char *W[5] = {"CR", "IC", "TO", "AP", "LD"};
static I fdiv(I a, I b) { I q = a / b; return (a % b && ((a < 0) != (b < 0))) ? q - 1 : q; }
static I rho, dev, zero, fuel, reserve, secs;
static int day, flying, air;
static I thr(I h, I v) {
    I k = 1000000000 - 1000000000 * h / c2 + (jet ? c3 * h * h / 10000000 : 0);
    if (k < 0) k = 0;
    if (jet) return c1 * k / 1000000000;
    I t = (10 * c1 / v) * k / 1000000000 + c3;
    return t < 0 ? 0 : t;
}
static I eta(I v) {
    if (jet) return f1 * (f2 + 10 * v) / f2;
    I d = f2 - 10 * v;
    if (d < 0) d = 0;
    return f1 * d / f2 * v / 10000;
}
static int leg(I p, I h, I v, I c, I t, I *o) {
    if (p < 1 || p > 3) return 15;
    if (!air && p != 1) return 16;
    if (h > ceil_) return 17;
    if (v < 300 || v > 7000) return 18;
    if (c < 20 || c > 500) return 19;
    if (t < 1 || t > 60) return 20;
    if (secs + t > 1000000) return 21;
    int g = 0;
    if (p == 1) g = h <= 400 ? 2 : h <= 2000 ? 1 : 0;
    else if (p == 3 && h < 8000 && 10000 * c < 13 * stall[0] + 100000) g = (h < 3000 && 10000 * c < 13 * stall[3] + 100000) ? 4 : 3;
    I q = rho * v * v * 214369 / 16200000, Q = q * wing / 1000000, w = (zero + fuel) / 1000 * 980665 / 1000000;
    if (10 * w > 3 * Q) return 22;
    I d = (cd0[g] + (g == 4 ? gear : 0)) * Q / 100000000 + cd2[g] * (10 * w * w / Q) / 10000000;
    I e = fdiv(c5 * (100 * dev - c4), 1000);
    e = e < 0 ? 0 : e > 400000000 ? 400000000 : e;
    I a = thr(h, v) * (1000000000 - e) / 1000000000, n = a, lim = 0;
    if (p == 2) { I cap = 95 * a / 100; lim = d > cap; n = lim ? cap : d; }
    if (p == 3) n = (g == 0 ? (h > dlev ? dhigh : dlow) : g == 3 ? dap : dld) * a / 100000000;
    I id = h >= f4 ? 0 : f3 * (f4 - h) / f4, fl = id;
    if (p != 3 || g) {
        I x = eta(v);
        if (x > 400000000) return 23;
        I nom = x * n / 100000000;
        fl = p == 1 ? nom : p == 2 ? nom * cr / 100000 : nom > id ? nom : id;
    }
    I b = fl * t / 60;
    if (b > fuel) return 25;
    fuel -= b; secs += t; air = 1;
    o[0] = g; o[1] = n; o[2] = d; o[3] = fl; o[4] = b; o[5] = lim;
    return 0;
}
int main(int argc, char **argv) {
    FILE *f = fopen(argv[1], "r");
    char name[32], value[32];
    while (fscanf(f, "%31s %31s", name, value) == 2) {
        if (!strcmp(name, "engine")) { jet = !strcmp(value, "Jet"); continue; }
        strcpy(n_[count_], name); v_[count_++] = atoll(value);
    }
    mn = get("mass_min"); mx = get("mass_max"); ceil_ = get("alt_max"); wing = get("wing_area"); gear = get("gear_cd0");
    for (int i = 0; i < 5; i++) {
        char b[16];
        sprintf(b, "stall_%s", W[i]); stall[i] = get(b); sprintf(b, "cd0_%s", W[i]); cd0[i] = get(b); sprintf(b, "cd2_%s", W[i]); cd2[i] = get(b);
    }
    c1 = get("ctc1"); c2 = get("ctc2"); c3 = get("ctc3"); c4 = get("ctc4"); c5 = get("ctc5"); dlow = get("desc_low"); dhigh = get("desc_high"); dlev = get("desc_level");
    dap = get("desc_ap"); dld = get("desc_ld"); f1 = get("cf1"); f2 = get("cf2"); f3 = get("cf3"); f4 = get("cf4"); cr = get("cfcr");
    char *line = 0; size_t cap = 0; ssize_t k;
    while ((k = getline(&line, &cap, stdin)) > 0) {
        if (line[k - 1] == '\n') line[k - 1] = 0;
        I a, b, c, d, e, o[6]; int r;
        if (sscanf(line, "leg %ld %ld %ld %ld %ld", &a, &b, &c, &d, &e) == 5) {
            if ((r = leg(a, b, c, d, e, o))) printf("no %d\n", r);
            else printf("leg %s %ld %ld %ld %ld %ld %ld %ld %d\n", W[o[0]], o[1], o[2], o[3], o[4], o[5], zero + fuel, fuel, fuel < reserve);
        } else if (sscanf(line, "bench %ld %ld", &a, &b) == 2) { rho = a; dev = b; day = 1; puts(line); }
        else if (!strncmp(line, "start", 5)) {
            c = 0; sscanf(line, "start %ld %ld %ld", &a, &b, &c);
            zero = a * 1000; fuel = b * 1000; reserve = c * 1000; secs = 0; air = 0; flying = 1;
            printf("start %ld %ld %d\n", zero + fuel, fuel, fuel < reserve);
        } else if (sscanf(line, "uplift %ld", &a) == 1) {
            if (air) puts("no 16"); else { fuel += a * 1000; printf("uplift %ld %ld %d\n", zero + fuel, fuel, fuel < reserve); }
        } else if (!strcmp(line, "touchdown")) { if (!air) puts("no 16"); else { air = 0; printf("touchdown %ld %ld %d\n", zero + fuel, fuel, fuel < reserve); } }
        else puts("no 26");
    }
    return 0;
}
