def step(a, b):
    return a + b % 3


def main():
    sum = 0
    for i in range(20000000):
        sum = step(sum, i)
    print(sum)


main()
