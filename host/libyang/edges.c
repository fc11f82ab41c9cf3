// edges FOLDER: what libyang reads of the YANG files NAME.yang of a folder. For each text that it reads a line `text NAME`, and for each import and include in
// it a line `edge FROM TO`; `refused NAME WHY` where it does not take a file. Where libyang has a module of this name and revision built in, it reads that one.
#include <dirent.h>
#include <libyang/libyang.h>
#include <stdio.h>
#include <stdlib.h>
#include <string.h>

static const char *folder;

// libyang gives ietf-netconf and ietf-netconf-with-defaults imports of its own, marked as internal.
static void imports(const struct lysp_import *rows, const char *name) {
    LY_ARRAY_COUNT_TYPE i;
    LY_ARRAY_FOR(rows, i) {
        if (!(rows[i].flags & LYS_INTERNAL)) printf("edge %s %s\n", rows[i].name, name);
    }
}

// A module of version 1.1 also gets the includes of its submodules from libyang, marked as injected: they stand in no text of the module.
static void includes(const struct lysp_include *rows, const char *name) {
    LY_ARRAY_COUNT_TYPE i;
    LY_ARRAY_FOR(rows, i) {
        if (!rows[i].injected) printf("edge %s %s\n", rows[i].name, name);
    }
}

static void module(const struct lysp_module *mod, const char *name) {
    LY_ARRAY_COUNT_TYPE i;
    printf("text %s\n", name);
    imports(mod->imports, name);
    includes(mod->includes, name);
    LY_ARRAY_FOR(mod->includes, i) {
        const struct lysp_submodule *sub = mod->includes[i].submodule;
        if (!sub) continue;
        printf("text %s\n", sub->name);
        imports(sub->imports, sub->name);
        includes(sub->includes, sub->name);
    }
}

// Each file in a context of its own, as a refused one takes those before it along. Nothing is compiled: which text names which is all that is asked.
static int load(const char *file) {
    char path[4096];
    struct ly_ctx *ctx;
    struct lys_module *mod = NULL;
    size_t n = strlen(file);
    if (n < 6 || strcmp(file + n - 5, ".yang")) return 0;
    snprintf(path, sizeof path, "%s/%s", folder, file);
    if (ly_ctx_new(folder, LY_CTX_NO_YANGLIBRARY | LY_CTX_DISABLE_SEARCHDIR_CWD | LY_CTX_EXPLICIT_COMPILE, &ctx)) return 2;
    if (lys_parse_path(ctx, path, LYS_IN_YANG, &mod)) printf("refused %.*s %s\n", (int)n - 5, file, ly_errmsg(ctx));
    else module(mod->parsed, mod->name);
    ly_ctx_destroy(ctx);
    return 0;
}

int main(int count, char **words) {
    struct dirent **files;
    int i, n, status = 0;
    if (count != 2) return fprintf(stderr, "usage: edges FOLDER\n"), 2;
    folder = realpath(words[1], NULL);
    n = folder ? scandir(folder, &files, NULL, alphasort) : -1;
    if (n < 0) return perror(words[1]), 2;
    ly_log_options(LY_LOSTORE);
    for (i = 0; i < n && !status; i++) status = load(files[i]->d_name);
    if (status) fprintf(stderr, "edges: libyang gives no context\n");
    return status;
}
