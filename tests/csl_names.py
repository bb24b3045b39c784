"""The names of CSL 1.0.2, by its schema, and files in which each of them stands."""

TEXTS = '''DOI ISBN ISSN PMCID PMID URL abstract annote archive archive-place archive_collection
archive_location authority call-number citation-key citation-label collection-title container-title
container-title-short dimensions division event-place event-title genre jurisdiction keyword
language license medium note original-publisher original-publisher-place original-title part-title
publisher publisher-place references reviewed-genre reviewed-title scale source status title
title-short volume-title year-suffix'''.split()
OLDER_TEXTS = 'event journalAbbreviation shortTitle'.split()
NUMBERS = '''chapter-number citation-number collection-number edition first-reference-note-number
issue locator number number-of-pages number-of-volumes page page-first part-number printing-number
section supplement-number version volume'''.split()
DATES = 'accessed available-date event-date issued original-date submitted'.split()
NAMES = '''author chair collection-editor compiler composer container-author contributor curator
director editor editor-translator editorial-director executive-producer guest host illustrator
interviewer narrator organizer original-author performer producer recipient reviewed-author
script-writer series-creator translator'''.split()
TYPES = '''article article-journal article-magazine article-newspaper bill book broadcast chapter
classic collection dataset document entry entry-dictionary entry-encyclopedia event figure graphic
hearing interview legal_case legislation manuscript map motion_picture musical_score pamphlet
paper-conference patent performance periodical personal_communication post post-weblog regulation
report review review-book software song speech standard thesis treaty webpage'''.split()
LOCATORS = '''act appendix article-locator book canon chapter column elocation equation figure folio
issue line note opus page paragraph part rule scene section sub-verbo supplement table timestamp
title-locator verse version volume'''.split()
FORMS = 'long short symbol verb verb-short'.split()
GENDERS = 'feminine masculine neuter'.split()
MATCHES = 'last-digit last-two-digits whole-number'.split()
# Terms that aren't called as a variable, a type or a locator.
OTHER_TERMS = '''ad and anonymous at bc bce by ce circa cited colon comma editortranslator et-al
film forthcoming from henceforth ibid in internet letter loc-cit no-place no-publisher on online
op-cit open-quote close-quote open-inner-quote close-inner-quote ordinal original-work-published
page-range-delimiter personal-communication podcast podcast-episode preprint radio-broadcast
radio-series radio-series-episode reference retrieved review-of semicolon special-issue
special-section television-broadcast television-series video working-paper album
audio-recording'''.split() + [
    'and others', 'available at', 'in press', 'no date', 'presented at', 'sub verbo',
    *('season-0%d' % n for n in range(1, 5)), *('month-%02d' % n for n in range(1, 13)),
    *('ordinal-%02d' % n for n in range(100)), *('long-ordinal-%02d' % n for n in range(1, 11)),
]


def terms():
    return sorted({*OTHER_TERMS, *NUMBERS, *NAMES, *TYPES, *LOCATORS, 'accessed'})


def style_of_names():
    """A style with each variable, type and locator type, and each term."""
    elements = [
        *('<text variable="%s"/>' % it for it in [*TEXTS, *OLDER_TEXTS]),
        *('<number variable="%s"/><label variable="%s"/>' % (it, it) for it in NUMBERS),
        *('<date variable="%s" form="text"/>' % it for it in DATES),
        *('<names variable="%s"/>' % it for it in NAMES),
        *('<text term="%s"/>' % it for it in terms()),
        *choices('type', TYPES), *choices('locator', LOCATORS),
        *choices('variable', [*TEXTS, *NUMBERS, *DATES, *NAMES]), *choices('is-numeric', NUMBERS),
    ]
    return ('<style xmlns="http://purl.org/net/xbiblio/csl" version="1.0" class="note">\n'
            '<info><title>T</title><id>i</id></info>\n<citation><layout>\n%s\n</layout></citation>'
            '</style>\n' % '\n'.join(elements)).encode()


def choices(condition, names):
    """A choice for each name."""
    return ['<choose><if %s="%s"/></choose>' % (condition, it) for it in names]


def locale_of_names():
    """A locale with each term, and each form, gender and match of one."""
    elements = [
        *('<term name="%s">t</term>' % it for it in terms()),
        *('<term name="editor" form="%s">t</term>' % it for it in FORMS),
        *('<term name="page" gender="%s">t</term>' % it for it in GENDERS),
        *('<term name="ordinal-01" gender-form="%s" match="%s">t</term>' % it
          for it in zip(GENDERS, MATCHES)),
    ]
    return ('<locale xmlns="http://purl.org/net/xbiblio/csl" version="1.0" xml:lang="en-US">\n'
            '<terms>\n%s\n</terms></locale>\n' % '\n'.join(elements)).encode()
