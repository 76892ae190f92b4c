/* The version of the library. */
const char *vezhnake_version(void);

const char *vezhnake_version(void) {
    return VERSION;
}
