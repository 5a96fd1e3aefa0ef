def main():
    sum = 0
    for i in range(50000000):
        sum = sum + i % 7
    print(sum)


main()
