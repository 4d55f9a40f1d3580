/* defer, if with a declaration, function literals, ownership. */
#include <stdio.h>
#include <stdlib.h>

struct node {
    int value;
    struct node *_Owner _Opt next;
};

static void drop(struct node *_Owner _Opt list)
{
    while (list) {
        struct node *_Owner _Opt next = list->next;
        free(list);
        list = next;
    }
}

int apply(int (*f)(int), int x)
{
    return f(x);
}

int sum(const struct node *_Opt list, _View struct node *other)
{
    int total = other->value;
    for (const struct node *p = list; p; p = p->next)
        total += p->value;
    return total;
}

int main(void)
{
    struct node *_Owner _Opt head = nullptr;
    defer drop(head);
    for (int i = 1; i <= 3; i++) {
        struct node *_Owner _Opt made = calloc(1, sizeof *made);
        if (!made)
            return 1;
        made->value = i;
        made->next = head;
        head = made;
    }
    if (int n = sum(head, head); n > 3) {
        defer { puts("large"); }
        printf("%d\n", n);
    } else
        puts("small");
    auto twice = (int (int x)) { return 2 * x; };
    auto choose = (int (*(int x))(void)) { x; return nullptr; };
    choose(1);
    return apply(twice, 3) - apply((int (int x)) { if (x) return x; return 6; }, 6);
}
