#!/usr/bin/env python3
"""The core called from Python: prints the result of a bag sheet, as `ylhovesko result` does.

    host/shared
    host/python/result.py demo/low_nox.bags
    host/python/result.py demo/gas.bags

The types are those of include/ylhovesko.h, which has the units and ranges. This is an example of the calls: it reads well-formed sheets only, and of a
damaged one the core says no more than the number and the place.
"""
import ctypes
import pathlib
import struct
import sys

LIBRARY = pathlib.Path(__file__).resolve().parents[1] / "target" / "libylhovesko.so"

VERSION = 13  # of the header after which the types here are written

UNSIGNED = ctypes.c_uint32
GASES = ["hc", "co", "nox", "co2", "nmhc"]


def record(name, **fields):
    """A struct of the header, its fields in the header's order."""
    return type(name, (ctypes.Structure,), {"_fields_": list(fields.items())})


def gases(name, kind):
    return record(name, **{gas: kind for gas in GASES})


Outcome = record("Outcome", number=UNSIGNED, at=UNSIGNED, within=UNSIGNED, side=UNSIGNED)
Reading = record("Reading", kind=UNSIGNED, bits=UNSIGNED)
Bag = record("Bag", hc=Reading, co=Reading, nox=Reading, co2=Reading, cutter=Reading)
Densities = gases("Densities", UNSIGNED)
Triple = record("Triple", d=UNSIGNED, wc=UNSIGNED, wh=UNSIGNED)
Fuel = record("Fuel", k=UNSIGNED, hc=UNSIGNED, co=UNSIGNED, co2=UNSIGNED, density=UNSIGNED)
Limits = gases("Limits", ctypes.c_uint64)
Efficiencies = record("Efficiencies", methane=UNSIGNED, ethane=UNSIGNED)
Part = record("Part", pump=UNSIGNED, revolutions=UNSIGNED, barometer=UNSIGNED, depression=UNSIGNED, temperature=ctypes.c_int32,
              humidity=UNSIGNED, saturation=UNSIGNED, distance=UNSIGNED, density=Densities, bag=Bag, air=Bag)
BagSheet = record("BagSheet", class_number=UNSIGNED, parts=UNSIGNED, triple=Triple, fuel=Fuel, limits=Limits, efficiencies=Efficiencies,
                  part=Part * 3)
Ends = record("Ends", lower=ctypes.c_int64, upper=ctypes.c_int64)
GasEnds = gases("GasEnds", Ends)
PartResult = record("PartResult", volume=Ends, mass=GasEnds, rate=GasEnds)
Verdicts = gases("Verdicts", UNSIGNED)
TestResult = record("TestResult", outcome=Outcome, part=PartResult * 3, weighted=GasEnds, verdict=Verdicts, has_nmhc=UNSIGNED, fuel=Ends)


def library():
    """The core, with what its functions take and give: ctypes knows neither."""
    core = ctypes.CDLL(str(LIBRARY))
    core.ylhovesko_version.restype = UNSIGNED
    if core.ylhovesko_version() != VERSION:
        sys.exit(f"{LIBRARY} has version {core.ylhovesko_version()}, and this example is for {VERSION}")
    core.ylhovesko_result.argtypes = [BagSheet]
    core.ylhovesko_result.restype = TestResult
    return core


def sections(text):
    """The values of a sheet's text, those of the test first and then those of each part."""
    found = [{}]
    for line in text.splitlines():
        said = line.split("#")[0].strip()
        if said.startswith("["):
            found.append({})
        elif said:
            key, value = said.split("=")
            found[-1][key.strip()] = value.strip()
    return found


def reading(value):
    """`12.5 ppm` or `1.2 %`, with the bits of the nearest 32-bit float; else `over range` or `not fitted`."""
    for kind, unit in enumerate(["ppm", "%"]):
        if value.endswith(unit):
            return Reading(kind, struct.unpack("<I", struct.pack("<f", float(value.removesuffix(unit))))[0])
    return Reading(["over range", "not fitted"].index(value) + 2, 0)


def filled(kind, values, word="", of=int):
    """A struct of the values whose keys are a word and the names of its fields."""
    return kind(*[of(values[f"{word} {name}".strip()]) for name, _ in kind._fields_])


def part(values):
    numbers = [int(values[name]) for name, _ in Part._fields_[:8]]
    bags = [filled(Bag, values, side, reading) for side in ["bag", "air"]]
    return Part(*numbers, filled(Densities, values, "density"), *bags)


CUTTER_KEYS = {"limit nmhc", "efficiency methane", "efficiency ethane", "density nmhc", "bag cutter", "air cutter"}


def without_cutter(test, parts):
    """The values with those of a bench without the cutter: the core judges the limit, the efficiencies and the density of NMHC there too."""
    test = {**test, "limit nmhc": "0", "efficiency methane": "0", "efficiency ethane": "0"}
    readings = {"bag cutter": "not fitted", "air cutter": "not fitted"}
    return test, [{**values, **readings, "density nmhc": values["density hc"]} for values in parts]


def bag_sheet(text):
    test, *parts = sections(text)
    if not any(CUTTER_KEYS & values.keys() for values in [test, *parts]):
        test, parts = without_cutter(test, parts)
    given = [part(values) for values in parts]
    return BagSheet(int(test["class"]), len(given), filled(Triple, test, "triple"), filled(Fuel, test, "fuel"), filled(Limits, test, "limit"),
                    filled(Efficiencies, test, "efficiency"), (Part * 3)(*given))


def figure(name, ends):
    return f"{'    ' + name:<30}{ends.lower:>20,} {ends.upper:>20,}"


def heading(title):
    return f"{title:<30}{'lower end':>20} {'upper end':>20}"


NAMES = {"hc": "HC", "co": "CO", "nox": "NOx", "co2": "CO2", "nmhc": "NMHC"}
VERDICTS = {1: "pass", 2: "fail", 3: "undecided: the limit lies between the ends"}


def printed(name, sheet, result):
    measured = GASES if result.has_nmhc else GASES[:-1]
    print(f"Result of {name}, class {sheet.class_number}\nat 20 degrees C and 101.325 kPa\n")
    for number in range(sheet.parts):
        told = result.part[number]
        print(heading(f"Part {number + 1}"))
        print(f"  volume, ml\n{figure('diluted gas', told.volume)}")
        for title, figures in [("mass, micrograms", told.mass), ("rate, micrograms/km", told.rate)]:
            print(f"  {title}")
            for gas in measured:
                print(figure(NAMES[gas], getattr(figures, gas)))
        print()
    print(f"{heading('Weighted, micrograms/km')} {'limit':>20}  verdict")
    for gas in measured:
        limit, verdict = getattr(sheet.limits, gas), VERDICTS[getattr(result.verdict, gas)]
        print(f"{figure(NAMES[gas], getattr(result.weighted, gas))} {limit:>20,}  {verdict}")
    if not result.has_nmhc:
        print(f"{'    NMHC':<30}not measured: the cutter is not fitted")
    print(f"\n{heading('Fuel, microlitres per 100 km')}\n{figure('consumption', result.fuel)}")


def main():
    path = pathlib.Path(sys.argv[1])
    sheet = bag_sheet(path.read_text())
    result = library().ylhovesko_result(sheet)
    refused = result.outcome
    if refused.number != 0:
        print(f"refused: {refused.number} at {refused.at}, {refused.within}, {refused.side}")
        sys.exit(1)
    printed(path.name, sheet, result)


main()
