def main():
    cells = [0] * 1000
    for i in range(30000):
        for j in range(1000):
            cells[j] = (cells[j] + i) ^ j
    print(sum(cells))


main()
