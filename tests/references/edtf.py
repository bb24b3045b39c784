"""Dates of EDTF, as CSL-JSON has them: those of .bib files, and those of the Python package."""

# Each date, and what is kept of it, which is all.
KEPT = [
    ('2019', {'date-parts': [[2019]]}), ('2019-03', {'date-parts': [[2019, 3]]}),
    ('2019-03-05', {'date-parts': [[2019, 3, 5]]}), ('2019-3-5', {'date-parts': [[2019, 3, 5]]}),
    ('2019-03/2019-05', {'date-parts': [[2019, 3], [2019, 5]]}),
    ('2019/2021-02-03', {'date-parts': [[2019], [2021, 2, 3]]}),
    ('1999--2000', {'date-parts': [[1999], [2000]]}),
    ('1999–2000', {'date-parts': [[1999], [2000]]}),
    ('1984~', {'date-parts': [[1984]], 'circa': True}),
    ('1984-05%', {'date-parts': [[1984, 5]], 'circa': True}),
    ('ca. 1850', {'date-parts': [[1850]], 'circa': True}),
    ('1984~/1986', {'date-parts': [[1984], [1986]], 'circa': True}),
    ('2001-21', {'date-parts': [[2001]], 'season': 1}),
    ('2001-24', {'date-parts': [[2001]], 'season': 4}),
    ('2001-22/2001-23', {'date-parts': [[2001, 22], [2001, 23]]}),
    # (the year 0 is 1 BC, which CSL has as -1)
    ('-0876', {'date-parts': [[-877]]}), ('0000', {'date-parts': [[-1]]}),
    ('y10000', {'date-parts': [[10000]]}),
    # biblatex: digits that are not specified are a range
    ('199X', {'date-parts': [[1990], [1999]]}), ('19XX', {'date-parts': [[1900], [1999]]}),
    ('1999-XX', {'date-parts': [[1999, 1], [1999, 12]]}), ('1999-XX-XX', {'date-parts': [[1999]]}),
    ('2000-02-XX', {'date-parts': [[2000, 2, 1], [2000, 2, 29]]}),
    ('1900-02-XX', {'date-parts': [[1900, 2, 1], [1900, 2, 28]]}),
]

# Each date, what is kept of it, and what is lost.
LOST = [
    ('1984?', {'date-parts': [[1984]]}, 'that the date is uncertain'),
    ('1999/', {'date-parts': [[1999]]}, 'the open end of a range'),
    ('../1999', {'date-parts': [[1999]]}, 'the open beginning of a range'),
    ('1999/open', {'date-parts': [[1999]]}, 'the open end of a range'),
    ('2020-05-06T12:30:00Z', {'date-parts': [[2020, 5, 6]]}, 'the time of the day'),
    ('2019-13', {'date-parts': [[2019]]}, 'a month that no year has'),
    ('2019-02-30', {'date-parts': [[2019, 2]]}, 'a day that no month has'),
    ('in press', {'literal': 'in press'}, 'no date of a known form: kept as a text'),
    ('..', {'literal': '..'}, 'no date of a known form: kept as a text'),
]
