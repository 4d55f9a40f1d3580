/* Each statement, with declarations among them. */
int next(void);
void done(int status);

int walk(int count)
{
    int total = 0;
    ;
    {
        int total = 1;
        done(total);
    }
    if (count > 3)
        total++;
    else if (count > 2)
        total--;
    else
        total = 0;
    while (next())
        if (next())
            break;
        else
            continue;
    do
        total += next();
    while (total < 10);
    for (int i = 0, j = 9; i < j; i++, j--)
        total += i;
    for (;;)
        break;
    for (total = 0; total < 3;)
        total++;
    switch (count) {
    case 0:
    case 1 + 1:
        total = 2;
        break;
        int late;
    case 'a':
        late = 3;
        total = late;
        break;
    default:
    }
    [[maybe_unused]] int unused = 4;
    static_assert(1);
    return total;
}

void nothing(int)
{
    return;
}
