struct row { int at; int degrees; };
static const struct row type_k[] = {{0, 0}, {41, 10}, {81, 20}};
static const struct row type_j[] = {{0, 0}, {50, 10}, {102, 20}};
static const struct row *pick(char code) {
    if (code == 'K')
        return type_k;
    if (code == 'J')
        return type_j;
    return 0;
}
int probe(char code, int at) {
    const struct row *t = pick(code);
    if (!t)
        return -1;
    return t[at % 3].degrees;
}
int start(void) { return probe('K', 1); }
