def main():
    composite = bytearray(10000000)
    count = 0
    for i in range(2, 10000000):
        if not composite[i]:
            count += 1
            for j in range(i + i, 10000000, i):
                composite[j] = 1
    print(count)


main()
