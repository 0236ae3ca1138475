/* Preloaded into PostgreSQL together with libasan, for store/sanitize: under it bindtextdomain of glibc 2.36 waits for ever for
 * a lock of its own, so there are no translated messages. */
char *bindtextdomain(const char *domain, const char *folder);
char *textdomain(const char *domain);

char *bindtextdomain(const char *domain, const char *folder) {
    (void)domain, (void)folder;
    return 0;
}

char *textdomain(const char *domain) {
    (void)domain;
    return 0;
}
