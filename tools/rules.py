"""Document 01's box and inference_v6.rs's default weights, as decimals: what the scripts that write test vectors share."""

FSRS6_DEFAULT_PARAMETERS = """
    0.212 1.2931 2.3065 8.2956 6.4133 0.8334 3.0194 0.001 1.8722 0.1666 0.796
    1.4835 0.0614 0.2629 1.6483 0.6014 1.8729 0.5425 0.0912 0.0658 0.1542""".split()

# the ends of each weight, by its place
BOX = {}
for low, high, places in (
    ("0.0001", "36500", (0, 1, 2, 3)), ("0", "20", (4,)), ("0", "4", (5,)), ("0", "6", (6,)),
    ("0", "1", (7, 9, 12, 13, 15, 19)), ("-5", "5", (8,)), ("0", "5", (10, 14)), ("0.001", "10", (11,)),
    ("1", "10", (16,)), ("0", "3", (17, 18)), ("0.1", "1", (20,)),
):
    BOX.update((i, (low, high)) for i in places)

# why a call or a file is refused, by document 01's number
REFUSALS = {
    1: "not 21 weights", 2: "a weight is outside its range", 3: "rows or columns are over the limit",
    4: "too few records or step gradients", 5: "not 21 gradient slots", 6: "a rating is not 0, 1, 2, 3 or 4",
    7: "a day is outside -100000..100000", 8: "a review weight or a label is out of range", 9: "a prefix has the length 0",
    10: "a kernel's argument is outside its domain", 11: "the batch file is malformed",
}
