# Writes a header in which the limits have one field more, behind the others: that of a later library.
{
    print
    if ($2 == "devices;") {
        print "    uint64_t more;"
    }
}
