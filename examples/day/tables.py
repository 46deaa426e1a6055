"""The example day in tables. make_day.py makes the bytes of it, README.md tells its story.

Power is in tenths of a MW, energy in tenths of a MWh, prices are in cents per MW for one hour.
"""

WEST, EAST, SOUTHEAST, NEW_YORK_CITY, LONG_ISLAND = range(5)
SYNCHRONIZED, NOT_SYNCHRONIZED = 1, 2

SUPPLIERS = [
    # number, location, kind, upper limit, response rate
    (101, WEST, SYNCHRONIZED, 2_000, 60),             # Alder Creek, hydro
    (102, WEST, SYNCHRONIZED, 3_500, 40),             # Bell Ridge, combined cycle
    (203, EAST, SYNCHRONIZED, 2_400, 120),            # Cold Spring, pumped storage
    (304, SOUTHEAST, NOT_SYNCHRONIZED, 800, 0),       # Dover, peaking turbines
    (405, NEW_YORK_CITY, NOT_SYNCHRONIZED, 1_200, 0), # East River, peaking turbines
    (506, LONG_ISLAND, SYNCHRONIZED, 1_000, 25),      # Fire Cove, steam
]
ALDER_CREEK, COLD_SPRING, DOVER = 0, 2, 3             # rows that the story speaks of

CUSTOMERS = [
    # number, gross at full load, station power, excluded exports
    (9001, 3_200, 0, 0),      # Lakeshore Light
    (9002, 1_450, 0, 0),      # Westfield Cooperative
    (9003, 1_900, 120, 0),    # Harbor Steel, which has a plant of its own
    (9004, 1_780, 0, 0),      # Island Electric
    (9005, 800, 0, 300),      # Border Trading, which exports
]

CURVES = [
    # (margin, price) of each step; thirty-minute, ten-minute, spinning of each area
    # total
    [(955, 75_000), (655, 20_000), (300, 10_000), (0, 2_500)], [(0, 75_000)], [(200, 77_500), (0, 2_500)],
    # East and beyond, Southeast and beyond
    [(0, 4_000)], [(400, 77_500), (0, 4_000)], [(0, 4_000)],
    [(0, 50_000)], [(0, 4_000)], [(0, 4_000)],
    # New York City, Long Island
    [(250, 50_000), (0, 2_500)], [(0, 2_500)], [(0, 2_500)],
    [(135, 50_000), (0, 2_500)], [(0, 2_500)], [(0, 2_500)],
]

TARGETS = {
    # thirty-minute, ten-minute, spinning of: total, East, Southeast, New York City, Long Island
    "night": [3_300, 1_380, 880, 2_000, 980, 480, 1_100, 580, 80, 500, 500, 0, 300, 80, 80],
    "day": [4_000, 2_000, 1_000, 2_400, 1_500, 500, 1_400, 1_100, 100, 600, 600, 0, 400, 100, 100],
    "peak": [4_100, 2_200, 1_000, 2_300, 1_700, 500, 1_500, 1_300, 100, 700, 700, 0, 300, 100, 100],
}

# Day-ahead schedules meet the targets to the tenth; only at the peak the total is 350 short of thirty-minute reserve.
SCHEDULES = {
    # energy, regulation, spinning, ten, thirty of each supplier
    "night": [(600, 50, 250, 0, 400), (1_800, 100, 150, 0, 500), (-1_500, 0, 400, 0, 500),
              (0, 0, 0, 0, 300), (0, 0, 0, 500, 0), (300, 20, 80, 0, 220)],
    "day": [(1_000, 50, 300, 0, 500), (2_400, 100, 200, 0, 600), (1_200, 0, 400, 0, 600),
            (0, 0, 0, 400, 0), (0, 0, 0, 600, 0), (500, 20, 100, 0, 300)],
    "peak": [(1_300, 0, 300, 0, 400), (2_750, 0, 200, 0, 550), (1_600, 0, 400, 0, 400),
             (0, 0, 0, 500, 0), (0, 0, 0, 700, 0), (700, 0, 100, 0, 200)],
}

PRICED = [0, 1, 2, 3, 5, 6, 9, 12]  # requirements of the price columns; all other shadow prices are 0
HOURS = [
    # shape, load in percent, then day-ahead shadow prices:
    #              total thirty, ten, spinning; East thirty, spinning; Southeast, New York City, Long Island thirty
    ("night", 66, (150, 40, 110, 35, 60, 0, 25, 45)),
    ("night", 63, (140, 35, 105, 30, 55, 0, 25, 40)),
    ("night", 61, (135, 35, 100, 30, 55, 0, 20, 40)),
    ("night", 60, (130, 30, 100, 30, 50, 0, 20, 40)),
    ("night", 62, (135, 30, 105, 30, 50, 0, 20, 40)),
    ("night", 67, (160, 45, 120, 40, 65, 0, 30, 50)),
    ("day", 75, (260, 80, 175, 60, 90, 10, 45, 70)),
    ("day", 83, (340, 110, 220, 80, 115, 15, 60, 85)),
    ("day", 88, (375, 125, 240, 90, 130, 20, 65, 95)),
    ("day", 90, (390, 130, 245, 95, 135, 20, 70, 95)),
    ("day", 91, (395, 130, 250, 95, 135, 20, 70, 100)),
    ("day", 92, (400, 135, 250, 100, 140, 25, 75, 100)),
    ("day", 92, (405, 135, 255, 100, 140, 25, 75, 105)),
    ("day", 91, (400, 130, 250, 95, 140, 25, 70, 100)),
    ("day", 92, (410, 135, 255, 100, 145, 25, 75, 105)),
    ("day", 94, (450, 150, 275, 110, 155, 30, 85, 115)),
    ("peak", 97, (2_800, 260, 410, 240, 280, 55, 160, 210)),
    ("peak", 100, (4_200, 340, 520, 310, 350, 80, 210, 260)),
    ("peak", 100, (4_650, 365, 560, 330, 375, 85, 225, 280)),
    ("peak", 98, (3_100, 280, 430, 255, 300, 60, 170, 225)),
    ("day", 93, (430, 145, 265, 105, 150, 30, 80, 110)),
    ("day", 86, (360, 115, 230, 85, 125, 20, 65, 90)),
    ("day", 78, (280, 85, 185, 65, 95, 10, 50, 75)),
    ("night", 70, (170, 50, 125, 40, 70, 0, 30, 50)),
]

INTERVAL_SECONDS = 300
INTERVALS = [
    # real-time prices in percent of the day-ahead ones; spinning that moves from Cold Spring to Alder Creek
    (100, 0), (98, 0), (101, 0), (106, 15), (113, 30), (121, 45),
    (117, 40), (108, 15), (101, 0), (97, 0), (94, 0), (99, 0),
]

# The story's faults, each by its hour (README.md tells them).
CLOSED_EARLY, PRICED_TOO_HIGH, VOIDED, BEYOND_CAPABILITY, OPENED_AGAIN = 3, 7, 9, 14, 18
