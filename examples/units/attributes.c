/* Attributes at each place where they may stand. */
[[deprecated("old"), vendor::mark(1, [2], { 3 })]] int old(void);
[[nodiscard]] int new_one([[maybe_unused]] int a [[x]], int b[3] [[y]], int (*)(int) [[z]]);
struct [[packed::not]] flagged {
    [[maybe_unused]] int bits [[field]];
};
enum [[kinds]] kind { plain [[p]], fancy [[q]] = 2 };
int *[[star]] const pointer [[name]] = 0, other [[also]];
int function(void) [[suffix]]
{
    [[likely]];
    [[a]] int x = 1;
    [[b]] x++;
    [[c]] if (x) [[d]] return 1;
    switch (x) {
    [[e]] case 1: [[fallthrough]];
    [[f]] default: [[g]] break;
    }
    for ([[h]] int i = 0; i < 2; i++) [[i]] { }
    [[j]] [[k]] while (x) [[l]] x--;
    return sizeof(int *[[m]] const);
}
[[]];
