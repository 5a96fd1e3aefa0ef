def main():
    for i in range(400000):
        line = ""
        for j in range(20):
            line += "word "
        print("%6d %s" % (i, line))


main()
