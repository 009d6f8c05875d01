// Times node for bench/numbers.sh: a row `format`, `range`, `make` or `first`, locale, skeleton, number, nanoseconds of
// a call, by the options that the skeleton has in ECMA-402. `format` is Intl.NumberFormat.prototype.format, `range` is
// its formatRange, `make` is `new Intl.NumberFormat`, and `first` also formats the number. Reading is not in ECMA-402.
const CALLS = 20_000;
const NUMBERS = ["1234.5", "-1234567.891", "0.25"];
const UNIT = "unit/kilometer-per-hour";
const NAME = "currency/EUR unit-width-full-name";
const MADE = [["de", ""], ["en", "currency/EUR .00"], ["en", "K"], ["de", "KK"], ["de", UNIT], ["en", NAME]];
const RANGES = ["", "currency/EUR .00", UNIT, NAME];
const RANGE_END = "2345.6";
const OPTIONS = {
  "": { maximumFractionDigits: 6 },
  ".00": { minimumFractionDigits: 2, maximumFractionDigits: 2 },
  "currency/EUR .00": { style: "currency", currency: "EUR" },
  percent: { style: "percent", maximumFractionDigits: 6 },
  K: { notation: "compact" },
  KK: { notation: "compact", compactDisplay: "long" },
  E0: { notation: "scientific", maximumFractionDigits: 6 },
  [UNIT]: { style: "unit", unit: "kilometer-per-hour", maximumFractionDigits: 6 },
  "unit/day unit-width-full-name": { style: "unit", unit: "day", unitDisplay: "long", maximumFractionDigits: 6 },
  [NAME]: { style: "currency", currency: "EUR", currencyDisplay: "name" },
};

function timeOf(call) {
  const start = process.cpuUsage();
  for (let index = 0; index < CALLS; index++) call();
  const { user, system } = process.cpuUsage(start);
  return ((user + system) * 1000) / CALLS;
}

function printLeast(row, call) {
  let least = Infinity;
  for (let batch = 0; batch < process.argv[2]; batch++) least = Math.min(least, timeOf(call));
  console.log([...row, Math.round(least)].join("\t"));
}

function formatterOf(locale, skeleton) {
  return new Intl.NumberFormat(locale, { roundingMode: "halfEven", ...OPTIONS[skeleton] });
}

for (const [locale, skeleton] of MADE) {
  const [number] = NUMBERS;
  printLeast(["make", locale, skeleton, ""], () => formatterOf(locale, skeleton));
  printLeast(["first", locale, skeleton, number], () => formatterOf(locale, skeleton).format(number));
}
for (const locale of ["en", "de", "hi", "ar-EG", "ja"]) {
  for (const skeleton of Object.keys(OPTIONS)) {
    const { format } = formatterOf(locale, skeleton);
    for (const number of NUMBERS) printLeast(["format", locale, skeleton, number], () => format(number));
  }
  for (const skeleton of RANGES) {
    const formatter = formatterOf(locale, skeleton);
    const [start] = NUMBERS;
    const row = ["range", locale, skeleton, `${start}..${RANGE_END}`];
    printLeast(row, () => formatter.formatRange(start, RANGE_END));
  }
}
