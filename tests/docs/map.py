#!/usr/bin/env python3
"""map.py [--write]: prints docs/MAP.md, or writes it: for each element, attribute, value, term and
variable of CSL 1.0.2 the modules that honour it.

The names come from the crates: what each element may have from style_elements, the rest from
style_file. A module honours a name where its code has the field or the enum's variant that
stands for it; TOKENS says which where the field isn't called like the attribute, and CODE which
modules do the work under another word. DEFINITIONS names the definitions of what is proved. A case
of tests/writer has the name in its style; one whose rule names it goes first. tests/docs/run.py
checks that the page is what this prints."""
import functools
import glob
import os
import re
import sys
import textwrap

HERE = os.path.dirname(os.path.abspath(__file__))
ROOT = os.path.dirname(os.path.dirname(HERE))
sys.path += [os.path.dirname(HERE), os.path.join(os.path.dirname(HERE), 'writer')]

from cases import CASES

PAGE = 'docs/MAP.md'
READERS = ['style_reader', 'style_elements']
# The writer of citations by style files, and what the driver does in the mode `csl`.
PRODUCT = '''cite_texts cite_pieces cite_locale cite_dates cite_program cite_names cite_trees cite_walk cite_sorting
cite_tasks cite_host cite_answer write_html write_forms cite_inputs program_files program_pages program_subcommands mentions_names
mentions_groups mentions_tables mentions_notes mentions_ranges mentions_blocks mentions_arranging mentions_authors mentions_cited
mentions_cites driver_assembly driver_passes'''.split()
# The writer of layouts in JSON, and what the driver does in the modes `three` and `full`.
PORT = '''driver_lookup driver_styles layout_context layout_picking csl_writing driver_positions rounds_ambiguity rounds_names
rounds_grouping rounds_substitution rounds_rendering driver_assembly driver_passes csl_driver'''.split()
# Modules whose names of options are those of a call, and not of CSL.
OF_CALLS = ('cite_inputs::options',)
# How many modules a row names at most: those that have the name most often.
MOST = 3

# The code that stands for an element, in the product and in the port.
ELEMENTS = {
    'style': (r'\bdriven_style\b', r'\bPreparedStyle\b'),
    'locale': (r'\bstruct LocaleChain\b|\bstruct IndexedLocale\b|\bLocaleChain::new\b', r'\bfn first_answer\b|\bLocaleCode\b'),
    'style-options': (r'\.options\.\w+_in_quote|options\.limit_day', r'\.punctuation_in_quote\b'),
    'terms': (r'\bIndexedLocale\b', r'\bTermTable\b'),
    'term': (r'\bpub fn (?:plain_)?term\b', r'\bTermTable\b'),
    'single': (r'\bNumbered \{', r'\.single\b'),
    'multiple': (r'\bNumbered \{', r'\.multiple\b'),
    'macro': (r'\bOpenMacro\b', r'\bMacroTable\b'),
    'citation': (r'\bdriven_citation\b|\bcite_scene\b', r'\.citation\.layout\b'),
    'bibliography': (r'\bdriven_bibliography\b|\bitem_scene\b', r'\bbibliography\.layout\b|\bfn bibliography_of\b'),
    'sort': (r'\b(?:citation|section|bibliography)\.sort\b|\bKeyScene\b', None),
    'key': (r'\bSortKey\b|\bsection_key\b|\bkey\.key\b', None),
    'layout': (r'\.layout\.(?:delimiter|affixes|formatting)\b', r'\blayout\.(?:delimiter|elements)\b'),
    'text': (r'\bTextSource::|\bfn write_text\b', r'\bLayoutRenderingElement::Text\b|\bTextTarget::'),
    'number': (r'\bfn write_number\b|\bfn number_text\b', r'\bLayoutRenderingElement::Number\b'),
    'label': (r'\bfn write_(?:names_)?label\b', None),
    'date': (r'\bfn write_date\b|\bfn date_text\b|\bDateFormat::', r'\bLayoutRenderingElement::Date\b'),
    'date-part': (r'\bDatePart\b|\bDatePartName::', None),
    'names': (r'\bStep::Names\b|\bself\.write_names\(', r'\bLayoutRenderingElement::Names\b|\bfn pick_names\b'),
    'name': (r'\bNameRules\b|\bNameOptions\b', r'\bInheritableNameOptions\b'),
    'name-part': (r'\bNamePart\b', None),
    'et-al': (r'\bEtAlTerm::', r'\bOtherTerm::EtAl\b'),
    'substitute': (r'\b(?:Open|Close)Substitute\b', r'\bsubstitute\b'),
    'group': (r'\b(?:Open|Close)Group\b', r'\bLayoutRenderingElement::Group\b|\bpicked_group\b'),
    'choose': (r'\bStep::(?:Choose|Leave)\b', r'\bLayoutRenderingElement::Choose\b'),
    'if': (r'\bStep::Test\b|\bfn holds\b', r'\bChooseBranch\b|\.branches\b'),
    'else-if': (r'\bStep::Test\b|\bfn holds\b', r'\bChooseBranch\b|\.branches\b'),
    'else': (r'\.otherwise\b', r'\botherwise\b'),
}

# The code that stands for an attribute, where no field is called like it; `element@attribute` is of
# that element alone, and has a row of its own.
TOKENS = {
    'class': (r'\bStyleClass::|\bsettings\.class\b', r'\bStyleClass::|\bsettings\.class\b'),
    'version': (None, None),
    'demote-non-dropping-particle': (r'\bparticle_demotion\b|\bParticleDemotion::', None),
    'page-range-format': (r'\bpage_range_format\b|\bPageRangeFormat::', None),
    'and': (r'\bNameAnd::', r'\bNameAnd::'),
    'delimiter-precedes-et-al': (r'\bdelimiter_precedes_et_al\b|\bDelimiterPrecedes::', None),
    'delimiter-precedes-last': (r'\bdelimiter_precedes_last\b|\bDelimiterPrecedes::', None),
    'initialize': (r'\.initialize\b', None),
    'initialize-with': (r'\binitialize_with\b', r'\binitialize_with\b'),
    'name-as-sort-order': (r'\bname_as_sort_order\b|\bNameAsSortOrder::', None),
    'name-form': (r'\.form\b.*NameForm|\bNameForm::', r'\bname_form\b'),
    'name-delimiter': (r'\bname\.delimiter\b|\.name\b.*delimiter|\bname_delimiter\b|\bNameOptions\b', r'\bname_delimiter\b'),
    'limit-day-ordinals-to-day-1': (r'\blimit_day_ordinals_to_day_1\b|\blimits_day_ordinals\b', None),
    'disambiguate-add-givenname': (r'\bdisambiguate_add_given_?name\b', r'\bdisambiguate_add_givenname\b'),
    'givenname-disambiguation-rule': (r'\bgivenname_disambiguation_rule\b|\bDisambiguationRule::', r'\bDisambiguationRule::'),
    'collapse': (r'\bCollapse::', r'\bCollapse::'),
    'subsequent-author-substitute-rule': (r'\bSubstituteRule::|\bSubsequentAuthorSubstituteRule::',
                                          r'\bSubsequentAuthorSubstituteRule::'),
    'names-min': (r'\bnames_min\b', None),
    'sort': (r'\bSortDirection::', None),
    'quotes': (r'\bhas_quotes\b', r'\bquotes\b'),
    'strip-periods': (r'\bstrips?_periods\b', r'\bstrip_periods\b'),
    'text-case': (r'\btext_case\b|\bTextCase::', None),
    'display': (r'\.display\b|\bDisplay::', r'\bdisplay\b'),
    'prefix': (r'\baffixes\b', r'\bprefix\b'),
    'suffix': (r'\baffixes\b', r'\baffixes\.suffix\b|\bsuffixed\b'),
    'plural': (r'\bLabelPlural::|\bis_plural\b', r'\bplural\b'),
    'date-parts': (r'\bDateParts::', None),
    'gender': (r'\bGender\b', None),
    'gender-form': (r'\bgender_form\b', None),
    'punctuation-in-quote': (r'\bpunctuation_in_quotes?\b|\bin_quotes\b', r'\bpunctuation_in_quotes?\b'),
    'et-al-use-last': (r'\b(?:et_al_)?use_last\b', None),
    'match': (r'\bMatch::', r'\bChooseMatch::'),
    'disambiguate': (r'\bTest::Disambiguate\b|\bdisambiguates\b', r'\bCondition::Disambiguate\b'),
    'is-numeric': (r'\bTest::IsNumeric\b|\bfn is_numeric\b', None),
    'is-uncertain-date': (r'\bTest::IsUncertainDate\b|\bis_uncertain\b', None),
    'locator': (r'\bTest::Locator\b', None),
    'position': (r'\bTest::Position\b|\bCitePosition::', r'\bTestPosition::'),
    'type': (r'\bTest::Type\b', None),
    'value': (r'\bTextSource::Value\b', r'\bTextTarget::Value\b'),
    'key@macro': (r'\bSortBy::Macro\b', None),
    'text@macro': (r'\bOpenMacro\b|\bTextSource::Macro\b', r'\bTextTarget::Macro\b'),
    'key@variable': (r'\bSortBy::Variable\b', None),
    'text@variable': (r'\bTextSource::Variable\b', r'\bTextTarget::Standard\b'),
    'number@variable': (r'\bfn write_number\b', r'\bLayoutRenderingElement::Number\b'),
    'label@variable': (r'\bfn write_label\b', None),
    'date@variable': (r'\bfn write_date\b', r'\bLayoutRenderingElement::Date\b'),
    'names@variable': (r'\.variables\b', r'\bLayoutRenderingElement::Names\b'),
    'if@variable': (r'\bTest::Variable\b', r'\bCondition::Variable\b'),
    'else-if@variable': (r'\bTest::Variable\b', r'\bCondition::Variable\b'),
    'text@term': (r'\bTextSource::Term\b', r'\bTextTarget::Term\b'),
    'et-al@term': (r'\bEtAlTerm::', None),
    'term@name': (r'\bTermName\b', r'\bTermTable\b'),
    'macro@name': (None, r'\bMacroTable\b'),
    'date-part@name': (r'\bDatePartName::', None),
    'name-part@name': (r'\bNamePart\b', None),
    'term@form': (r'\bfind_in_forms\b|\bTermForm::', r'\bTermForm::'),
    'term@match': (r'\bOrdinalMatch::', None),
    'text@form': (r'\bVariableForm::|\bown_short_form\b', None),
    'number@form': (r'\bNumberForm::', None),
    'label@form': (r'\boptions\.form\b', None),
    'date@form': (r'\bDateForm\b', None),
    'date-part@form': (r'\b(?:Day|Month|Year)Form::', None),
    'name@form': (r'\bNameForm::', r'\bname_form\b'),
    'layout@delimiter': (r'\.layout\.delimiter\b', r'\blayout\.delimiter\b'),
    'date@delimiter': (r'\bDateFormat::Own\b|\bDateLayout\b', None),
    'names@delimiter': (r'\bnames_delimiter\b|\bnames\.delimiter\b', r'\bnames_delimiter\b'),
    'name@delimiter': (r'\bNameOptions\b', r'\bname_delimiter\b'),
    'group@delimiter': (r'\bgroup\.delimiter\b', r'\bdelimiter\b'),
}

# The definitions of what the driver decides in the mode `csl`, and of what is proved of the writer.
DEFINITIONS = {
    'near-note-distance': 'mentions_notes/specs/Notes',
    'disambiguate-add-names': 'mentions_names/specs/Reaches mentions_names/specs/Told',
    'disambiguate-add-givenname': 'mentions_names/specs/Reaches mentions_names/specs/Forms',
    'givenname-disambiguation-rule': 'mentions_names/specs/ByDocument mentions_names/specs/Reaches',
    'disambiguate-add-year-suffix': 'mentions_groups/specs/Suffixes',
    'cite-group-delimiter': 'mentions_arranging/specs/Order mentions_blocks/specs/Blocks',
    'collapse': 'mentions_arranging/specs/Collapsing mentions_blocks/specs/Collapsed',
    'year-suffix-delimiter': 'mentions_ranges/specs/SuffixStretches',
    'after-collapse-delimiter': 'mentions_blocks/specs/Years mentions_ranges/specs/NumberRanges',
    'subsequent-author-substitute': 'mentions_authors/specs/Repeated',
    'subsequent-author-substitute-rule': 'mentions_authors/specs/Repeated mentions_authors/specs/Substitution',
    'second-field-align': 'driver_assembly/specs/BibliographyItems',
    'layout@delimiter': 'driver_assembly/specs/CitationTree',
    'disambiguate': 'mentions_tables/specs/Tables',
    'collapse=citation-number': 'mentions_ranges/specs/NumberRanges',
    'collapse=year': 'mentions_blocks/specs/Years',
    'collapse=year-suffix': 'mentions_ranges/specs/SuffixStretches',
    'collapse=year-suffix-ranged': 'mentions_ranges/specs/SuffixStretches',
    'position=first': 'mentions_notes/specs/Notes',
    'position=ibid': 'mentions_notes/specs/Repeats',
    'position=ibid-with-locator': 'mentions_notes/specs/Repeats',
    'position=near-note': 'mentions_notes/specs/Notes',
    'position=far-note': 'mentions_notes/specs/Notes',
    'position=subsequent': 'mentions_notes/specs/Notes',
    'givenname-disambiguation-rule=by-cite': 'mentions_names/specs/Reaches',
    **{'givenname-disambiguation-rule=' + it: 'mentions_names/specs/ByDocument'
       for it in ('all-names', 'all-names-with-initials', 'primary-name', 'primary-name-with-initials')},
    **{'subsequent-author-substitute-rule=' + it: 'mentions_authors/specs/Repeated'
       for it in ('complete-all', 'complete-each', 'partial-each', 'partial-first')},
    **{'page-range-format' + it: 'cite_texts/specs/Pages'
       for it in ('', '=chicago', '=chicago-15', '=chicago-16', '=expanded', '=minimal', '=minimal-two')},
    'et-al-min': 'cite_names/specs/EtAl cite_names/specs/Cuts',
    'et-al-use-first': 'cite_names/specs/EtAl cite_names/specs/Cuts',
    'et-al-use-last': 'cite_names/specs/EtAl cite_names/specs/Cuts',
    'et-al-subsequent-min': 'cite_names/specs/Cuts',
    'et-al-subsequent-use-first': 'cite_names/specs/Cuts',
    'names-min': 'cite_names/specs/Cuts',
    'names-use-first': 'cite_names/specs/Cuts',
    'names-use-last': 'cite_names/specs/Cuts',
    'year-suffix': 'mentions_groups/specs/Suffixes',
    'citation-number': 'csl_driver/specs/CslAnswer',
    'first-reference-note-number': 'mentions_notes/specs/Notes',
}

# Modules that do the work of a name, and have another word for it.
CODE = {
    'after-collapse-delimiter': 'mentions_blocks::years mentions_ranges::numbers',
    'cite-group-delimiter': 'mentions_arranging::order mentions_blocks::blocks',
    'disambiguate': 'mentions_tables::chosen cite_walk::conditions',
    'disambiguate-add-givenname': 'mentions_names::reach',
    'disambiguate-add-names': 'mentions_names::reach',
    'disambiguate-add-year-suffix': 'mentions_groups::suffixes',
    'layout@delimiter': 'driver_assembly::citation',
    'position=first': 'mentions_notes::notes',
    'position=subsequent': 'mentions_notes::notes',
    'position=ibid': 'mentions_notes::repeats',
    'position=ibid-with-locator': 'mentions_notes::repeats',
    'position=near-note': 'mentions_notes::notes',
    'position=far-note': 'mentions_notes::notes',
    'collapse=citation-number': 'mentions_ranges::numbers',
    'collapse=year': 'mentions_blocks::years',
    'collapse=year-suffix': 'mentions_ranges::suffixes',
    'collapse=year-suffix-ranged': 'mentions_ranges::suffixes',
    'demote-non-dropping-particle': 'cite_names::parts',
    'et-al-min': 'cite_names::shown',
    'et-al-use-first': 'cite_names::shown',
    'et-al-use-last': 'cite_names::shown cite_names::list',
    'subsequent-author-substitute': 'mentions_authors::repeated mentions_authors::substitution',
    'year-suffix-delimiter': 'mentions_ranges::suffixes',
    'variable=locator': 'cite_walk::locators cite_locale::locators',
}
CODE_IN_PORT = {'disambiguate': 'rounds_ambiguity::choose'}

# Cases that hold a name, though their rules have another word for it.
CASE_OF = {
    'date-part@name': 'an own date',
    'date-part@name=month': 'an own date',
    'date-part@name=year': 'an own date',
    'macro@name': 'an empty macro',
    'plural': 'plural of pages',
    'plural=contextual': 'plural of pages',
    'text@value': 'words of the style',
    'term@form': 'another form of a term',
    'term@form=short': 'another form of a term',
    'delimiter-precedes-last=contextual': 'two names',
}

# Where the tables of values stand, and those of them that TABLE_OF names.
TABLES = {
    'crates/style_elements/src/tables.rt': None,
    'crates/style_file/src/term.rt': ('TERM_FORMS', 'GENDERS', 'ORDINAL_MATCHES'),
    'crates/style_reader/src/date.rt': ('PART_NAMES',),
    'crates/style_reader/src/names.rt': ('PART_NAMES',),
}
# The attributes that name the values of these tables, each of these elements.
TABLE_OF = {
    'FONT_STYLES': 'font-style', 'FONT_VARIANTS': 'font-variant', 'FONT_WEIGHTS': 'font-weight',
    'TEXT_DECORATIONS': 'text-decoration', 'VERTICAL_ALIGNS': 'vertical-align', 'DISPLAYS': 'display', 'TEXT_CASES': 'text-case',
    'VARIABLE_FORMS': 'text@form', 'NUMBER_FORMS': 'number@form', 'LABEL_PLURALS': 'plural', 'DATE_FORMS': 'date@form',
    'DATE_PARTS': 'date-parts', 'DAY_FORMS': 'date-part@form', 'MONTH_FORMS': 'date-part@form', 'YEAR_FORMS': 'date-part@form',
    'NAME_ANDS': 'and', 'DELIMITER_PRECEDES': 'delimiter-precedes-last', 'NAME_FORMS': 'name@form',
    'NAME_ORDERS': 'name-as-sort-order', 'ET_AL_TERMS': 'et-al@term', 'MATCHES': 'match', 'POSITIONS': 'position',
    'SORT_DIRECTIONS': 'sort', 'COLLAPSES': 'collapse', 'GIVEN_NAME_RULES': 'givenname-disambiguation-rule',
    'SECOND_FIELD_ALIGNS': 'second-field-align', 'SUBSTITUTE_RULES': 'subsequent-author-substitute-rule', 'CLASSES': 'class',
    'PARTICLE_DEMOTIONS': 'demote-non-dropping-particle', 'PAGE_RANGE_FORMATS': 'page-range-format',
    'TERM_FORMS': 'term@form', 'GENDERS': 'gender', 'ORDINAL_MATCHES': 'term@match',
    'date.rt PART_NAMES': 'date-part@name', 'names.rt PART_NAMES': 'name-part@name',
}
# What else the values of a table are of.
OF = {'DAY_FORMS': ', a day', 'MONTH_FORMS': ', a month', 'YEAR_FORMS': ', a year',
      'DELIMITER_PRECEDES': ', `delimiter-precedes-et-al`', 'GENDERS': ', `gender-form`',
      'TERM_FORMS': ', of `label`, and of `text` with a `term`'}
# Tables whose values are looked up, and have no variants of their own in the writer.
LOOKED_UP = ('TERM_FORMS', 'GENDERS', 'PART_NAMES')
# Values of these tables say what a style is, and change nothing that is written.
ONLY_READ = ('LINK_RELATIONS', 'CITATION_FORMATS', 'FIELDS')

# Where variables and terms are written that no code names.
ANY = {'text': 'cite_walk::texts', 'number': 'cite_walk::numbers', 'date': 'cite_walk::dates', 'name': 'cite_walk::names'}
ANY_IN_PORT = {'text': 'layout_picking::variables', 'number': 'layout_picking::variables', 'date': 'layout_picking::variables',
               'name': 'layout_picking::names'}


@functools.lru_cache(None)
def text_of(path):
    with open(f'{ROOT}/{path}', encoding='utf-8') as file:
        return file.read()


@functools.lru_cache(None)
def code_of(crate):
    """The code of each module of a crate, without comments, imports and contracts, by its name."""
    found = {}
    for path in sorted(glob.glob(f'{ROOT}/crates/{crate}/src/*.rt')):
        module = os.path.basename(path)[:-len('.rt')]
        code = re.sub(r'//.*', '', text_of(os.path.relpath(path, ROOT)))
        code = re.sub(r'^(?:ghost )?(?:pub )?use [^;]*;', '', code, flags=re.MULTILINE)
        code = re.sub(r'^\s*(?:requires|ensures|invariant)\b.*', '', code, flags=re.MULTILINE)
        found[f'{crate}::{module}' if module not in ('lib', 'main') else crate] = code
    return found


@functools.lru_cache(None)
def modules(crates, pattern):
    """The modules of crates whose code has what a pattern matches; those that have it most often."""
    if pattern is None:
        return []
    counts = [(len(re.findall(pattern, code)), name) for crate in crates for name, code in code_of(crate).items() if name not in OF_CALLS]
    found = sorted((it for it in counts if it[0]), key=lambda it: (-it[0], it[1]))[:MOST]
    return [name for _, name in found]


def in_product(pattern):
    """Those of the product. That a style is copied for the driver counts where nothing else does."""
    found = modules(tuple(PRODUCT), pattern)
    return [it for it in found if it != 'cite_host::driven'] or found


def working_on(key, pattern):
    """The modules of the product that work on a name: those that CODE says go first."""
    first = CODE.get(key, '').split()
    if not all(it in code_of(it.split('::')[0]) for it in first + CODE_IN_PORT.get(key, '').split()):
        sys.exit('map.py: CODE names modules of %s that are not there' % key)
    return [*first, *(it for it in in_product(pattern) if it not in first)][:MOST]


def in_writer(pattern):
    """Those of the writer of style files."""
    return modules(tuple(it for it in PRODUCT if it.startswith('cite_')), pattern)


def in_port(pattern, key=''):
    first = CODE_IN_PORT.get(key, '').split()
    return [*first, *(it for it in modules(tuple(PORT), pattern) if it not in first)][:MOST]


def rows_of(path, table):
    """The rows of a table of names: each name, and the variant that stands for it."""
    found = re.search(r'\bconst %s: [^=]*= &\[(.*?)\];' % table, text_of(path), re.DOTALL)
    return re.findall(r'\(\s*"([^"]+)",\s*(\w+::\w+)[^)]*\)', found.group(1))


def shapes():
    """Each element with its attributes and the elements in it, as style_elements has them."""
    text = text_of('crates/style_elements/src/shape.rt')
    lists = dict(re.findall(r'^const (\w+): &\[&str\] = &\[(.*?)\];', text, re.MULTILINE | re.DOTALL))
    found = {}
    for body in re.findall(r'^pub const \w+: Shape = Shape \{(.*?)^\};', text, re.MULTILINE | re.DOTALL):
        name = re.search(r'name: "([^"]+)"', body).group(1)
        attributes = re.search(r'attributes: &\[(.*?)\],\n    children', body, re.DOTALL).group(1)
        names = re.findall(r'"([^"]+)"', attributes)
        for group in re.findall(r'\b[A-Z_]+\b', attributes):
            names += re.findall(r'"([^"]+)"', lists[group])
        found.setdefault(name, [])
        found[name] += [it for it in names if it not in found[name]]
    return found


def parts_of_info():
    """The elements of an `info`."""
    found = re.search(r'const PARTS: &\[&str\] = &\[(.*?)\];', text_of('crates/style_reader/src/info.rt'), re.DOTALL)
    return re.findall(r'"([^"]+)"', found.group(1))


def shown(items):
    return ', '.join('`%s`' % it for it in items) or '–'


def is_named(rule, words):
    """Whether a rule has one of these words in backquotes, or is that of the section of CSL that is called like one."""
    sections = rule.split(':')[0].lower().split(', ')
    spans = re.findall(r'`([^`]+)`', rule)
    return any(it in sections or any(re.search(r'(?<![\w-])%s(?![\w-])' % re.escape(it), span) for span in spans) for it in words)


def is_mentioned(case, words):
    """Whether a case or what its rule says has one of these words."""
    said = '%s %s' % (case.name, case.rule.split(':', 1)[-1])
    return any(re.search(r'(?<![\w-])%s(?![\w-])' % re.escape(it), said) for it in words)


def case_with(key, pattern, words):
    """A case of tests/writer whose style has this: if there is one, one whose rule names it; of several the shortest."""
    if key in CASE_OF:
        return next(it.name for it in CASES if it.name == CASE_OF[key])
    found = [it for it in CASES if re.search(pattern, it.style)]
    return min(found, key=lambda it: (not is_named(it.rule, words), not is_mentioned(it, words), len(it.style))).name if found else None


def held_by(key, pattern, *words):
    """What a name's rule is: its definitions, and a case that holds it; or else a file that has it."""
    case = case_with(key, pattern, words)
    held = [shown([it + '.antt']) for it in DEFINITIONS.get(key, '').split()] + ['“%s”' % case] * bool(case)
    if held:
        return ', '.join(held)
    for path in sorted(glob.glob(f'{ROOT}/tests/styles/documents/*') + glob.glob(f'{ROOT}/examples/styles/*.csl')):
        if re.search(pattern, text_of(os.path.relpath(path, ROOT))):
            return '`%s`' % os.path.relpath(path, ROOT)
    return '–'


def default_tokens(attribute):
    field = r'\b%s\b' % attribute.replace('-', '_')
    return field, field


def readers(attribute, elements):
    """The modules of style_reader that read an attribute; those that check one of its elements, where there are such."""
    named = r'"%s"' % re.escape(attribute)
    shapes_of = '|'.join(r'\b%s\b' % it.upper().replace('-', '_') for it in elements)
    found = [name for name, code in sorted(code_of('style_reader').items()) if re.search(named, code)]
    checking = [it for it in found if re.search(shapes_of, code_of('style_reader')[it])]
    return (checking or found)[:MOST]


def element_rows():
    yield '| Element | Read by | Written by | Held by | In the port |'
    for name in sorted(ELEMENTS):
        product, port = ELEMENTS[name]
        shape = name.upper().replace('-', '_')
        read = modules(('style_reader',), r'\b%s\b|"%s"' % (shape, name))
        yield '| `%s` | %s | %s | %s | %s |' % (name, shown(read), shown(in_writer(product)), held_by('', r'<%s\b' % name, name),
                                               shown(in_port(port)))


def attribute_rows():
    found = shapes()
    rows = {}
    for element, attributes in found.items():
        for attribute in attributes:
            own = f'{element}@{attribute}'
            rows.setdefault(own if own in TOKENS else attribute, []).append(element)
    yield '| Attribute | Of | Read by | Honoured by | Held by | In the port |'
    for key, elements in sorted(rows.items(), key=lambda it: (it[0].split('@')[-1], it[1])):
        attribute = key.split('@')[-1]
        product, port = TOKENS.get(key) or default_tokens(attribute)
        of = 'any' if len(elements) > 7 else shown(elements)
        tag = r'<(?:%s)\b[^>]*\s%s=' % ('|'.join(elements), attribute)
        yield '| `%s` | %s | %s | %s | %s | %s |' % (attribute, of, shown(readers(attribute, elements)), shown(working_on(key, product)),
                                                    held_by(key, tag, attribute), shown(in_port(port, key)))


def port_variants(value, kind):
    """The variant that a document of the port names so, of an enum that is called like this."""
    found = re.findall(r'\(\s*"%s",\s*((\w+)::\w+)' % re.escape(value), text_of('crates/document_values/src/tables.rt'))
    alike = {'GivenNameRule': 'DisambiguationRule', 'SubstituteRule': 'SubsequentAuthorSubstituteRule', 'Match': 'ChooseMatch',
             'CitePosition': 'TestPosition'}
    return [name for name, enum in found if enum == alike.get(kind, kind)]


def tables_of_values():
    """Each table of values, with the file in which it stands."""
    for path, names in TABLES.items():
        for name in names or re.findall(r'^pub const (\w+):', text_of(path), re.MULTILINE):
            if name not in ONLY_READ:
                yield path, name


def value_rows():
    yield '| Value | Of | Honoured by | Held by | In the port |'
    for path, table in tables_of_values():
        key = TABLE_OF.get(table) or TABLE_OF['%s %s' % (os.path.basename(path), table)]
        attribute = key.split('@')[-1]
        elements = 'term|label|text' if table == 'TERM_FORMS' else key.split('@')[0]
        tag = r'%s\b%s="(?:[^"]* )?%%s[ "]' % (r'<(?:%s)\b[^>]*' % elements if '@' in key else '', attribute)
        of = '`%s`' % attribute + (' of `%s`' % key.split('@')[0] if '@' in key else '') + OF.get(table, '')
        for value, variant in rows_of(path, table):
            own = f'{key}={value}' if table in LOOKED_UP else f'{attribute}={value}'
            port = port_variants(value, variant.split('::')[0])
            of_driver = [it for it in port if it.split('::')[1] == variant.split('::')[1]]
            product = None if table in LOOKED_UP else '|'.join(r'\b%s\b' % it for it in {variant, *of_driver})
            yield '| `%s` | %s | %s | %s | %s |' % (
                value, of, shown(working_on(own, product) or in_product((TOKENS.get(key) or default_tokens(attribute))[0])),
                held_by(own, tag % value, f'{attribute}="{value}"', value),
                shown(in_port('|'.join(r'\b%s\b' % it for it in port) or None)))


VARIABLES = [('text', 'TEXT_VARIABLES', 'STANDARD_VARIABLES'), ('number', 'NUMBER_VARIABLES', 'NUMBER_VARIABLES'),
             ('date', 'DATE_VARIABLES', 'DATE_VARIABLES'), ('name', 'NAME_VARIABLES', 'NAME_VARIABLES')]


def variable_rows():
    yield '| Variable | Kind | Written by | Code of its own | Held by | In the port |'
    for kind, table, of_port in VARIABLES:
        port = dict(rows_of('crates/document_values/src/tables.rt', of_port))
        for name, variant in rows_of('crates/style_file/src/variable.rt', table):
            known = port.get(name) or port.get(name.lower())
            there = in_port(r'\b%s\b' % known) if known else []
            pattern = r'\bvariable="(?:[^"]* )?%s[ "]' % re.escape(name)
            yield '| `%s` | %s | `%s` | %s | %s | %s |' % (
                name, kind, ANY[kind], shown(working_on('variable=' + name, r'\b%s\b' % variant)), held_by(name, pattern, name),
                shown(there or ([ANY_IN_PORT[kind]] if known else [])))


def kinds_of_terms():
    """For each term what it names: a variable, a type, a locator, or nothing else."""
    kinds = {}
    tables = [('variable.rt', 'NUMBER_VARIABLES', 'number'), ('variable.rt', 'NAME_VARIABLES', 'names'),
              ('item_type.rt', 'ITEM_TYPES', 'item type'), ('locator.rt', 'LOCATOR_TYPES', 'locator')]
    for file, table, kind in tables:
        for name, _ in rows_of('crates/style_file/src/' + file, table):
            kinds.setdefault(name, []).append(kind)
    return kinds


def term_rows():
    kinds = kinds_of_terms()
    english = text_of('crates/style_english/src/lib.rt') + ''.join(
        text_of(os.path.relpath(it, ROOT)) for it in sorted(glob.glob(f'{ROOT}/crates/style_english/src/*.rt')))
    port = {**dict(rows_of('crates/document_values/src/tables.rt', 'LOCATORS')), **dict(rows_of('crates/document_values/src/tables.rt', 'OTHER_TERMS'))}
    labels = {'number': 'cite_walk::numbers', 'locator': 'cite_walk::numbers', 'names': 'cite_walk::names'}
    yield '| Term | Names | Written by | In English | In the port |'
    for name, variant in rows_of('crates/style_file/src/term.rt', 'PLAIN_TERMS'):
        own = in_product(r'\b%s\b' % variant)
        label = sorted({labels[it] for it in kinds.get(name, []) if it in labels})
        written = [*own, *(it for it in label if it not in own)] or ['cite_walk::texts']
        known = port.get(name.replace(' ', '-'))
        is_english = re.search(r'name=\\?"%s\\?"' % re.escape(name), english)
        there = (in_port(r'\b%s\b' % known) or ['driver_lookup::lookup']) if known else []
        yield '| `%s` | %s | %s | %s | %s |' % (name, ', '.join(kinds.get(name, [])) or '–', shown(written), 'yes' if is_english else 'no',
                                               shown(there))
    yield '| `ordinal-00` to `ordinal-99` | – | %s | %s | – |' % (shown(in_product(r'\bTermName::Ordinal\b')), 'yes')
    yield '| `long-ordinal-01` to `long-ordinal-10` | – | %s | %s | – |' % (shown(in_product(r'\bTermName::LongOrdinal\b')), 'yes')


HEAD = '''# The map

Each name of CSL 1.0.2, and where it is honoured. `python3 tests/docs/map.py --write` makes this page
from the crates, and a test checks that the page is what the script makes.

Two writers stand under one driver (ARCHITECTURE.md). The *product* writes style files, with the
rules of the mode `csl`; the *port* writes layouts in JSON, in the modes `three` and `full`. Module
`c::m` is `crates/c/src/m.rt`, and `c/specs/D.antt` is in `crates/`. A row names at most three
modules: first those that do the work under another word, then those that mention the name most
often. *Held by* has the definitions that are proved to hold, and in quotes a case of
`tests/writer/cases.py` whose style has the name; one whose rule names it goes before others. Where
there is neither it has a file with the name, which holds only that the name is read. A dash means
that there is none: a name that the port lacks is no part of its format.
'''

INFO = '''## Info

%s

`style_reader::info` reads `title`, `title-short`, `id`, `link`, `category`,
`summary` and `updated`, and ignores the others; `gamhilon check` prints them, and a dependent style
finds its parent by them. They change nothing that is written. The same is so of `href`, `rel` and
`xml:lang` of a `link`, of `citation-format` and `field` of a `category`, and of `xml:lang` of
`style`; that of a `locale` is its language (`style_reader::style`, `style_reader::locale`).
'''


VARIABLES_HEAD = '''Styles of `tests/csl_names.py` have each of them in `text`, `number`, `label`, `date`, `names` and
`choose`, and `tests/styles/run.py` holds what is read of them. *Held by* has what holds more.
'''


def wrapped(text):
    return textwrap.fill(text, 100, break_on_hyphens=False)


def table(rows):
    rows = list(rows)
    return '\n'.join([rows[0], '|' + '---|' * (rows[0].count('|') - 1), *rows[1:]]) + '\n'


def page():
    parts = [HEAD, '## Elements\n', table(element_rows()), INFO % wrapped('An `info` has %s.' % ', '.join('`%s`' % it for it in parts_of_info())),
             '## Attributes\n', table(attribute_rows()), '## Values of attributes\n', table(value_rows()),
             '## Variables\n\n' + VARIABLES_HEAD, table(variable_rows()),
             '## Terms, item types and locators\n\nEach of these is a term, which `text` writes by its attribute `term` '
             '(`cite_walk::texts`), and which\n`cite_locale::terms` looks up. What names a variable or a locator also stands in '
             'its label. Item types\nand locators are what `type` and `locator` test (`cite_walk::conditions`).\n',
             table(term_rows())]
    return '\n'.join(parts)


def main():
    text = page()
    if sys.argv[1:] == ['--write']:
        with open(f'{ROOT}/{PAGE}', 'w', encoding='utf-8') as file:
            file.write(text)
    else:
        sys.stdout.write(text)
    return 0


if __name__ == '__main__':
    sys.exit(main())
