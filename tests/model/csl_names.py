"""Names that tell works apart in the mode `csl`: what a form shows of a person, what the other
persons of a document ask for, and what two mentions that read alike ask of each other.
"""
from itertools import zip_longest

from csl_mentions import occurring
from pieces import initials
from states import COUNT, FULL, INITIALS, SHORT

OF_ALL_NAMES = ('all-names', 'all-names-with-initials')
OF_PRIMARY_NAMES = ('primary-name', 'primary-name-with-initials')
WITH_INITIALS = ('all-names-with-initials', 'primary-name-with-initials')


# A person


def given_name(person):
    """The given name, if it has initials."""
    given = person[1] if len(person) > 1 else ''
    return given if initials(given) else None


def look(person, form):
    """The family name, and behind it nothing, the initials or the given name."""
    given = given_name(person)
    if form == SHORT or given is None:
        return person[0], None, ()
    return (person[0], form, tuple(initials(given)) if form == INITIALS else given)


def needed(person, others):
    """The least form in which a person looks unlike all who don't look alike in full."""
    rivals = [other for other in others
              if other[0] == person[0] and look(other, FULL) != look(person, FULL)]
    if given_name(person) is None or not rivals:
        return SHORT
    is_shared = look(person, INITIALS) in [look(rival, INITIALS) for rival in rivals]
    return FULL if is_shared else INITIALS


# A mention, with its persons and its own forms


def base(mention):
    """The form in which the style of a mention writes names."""
    return max((form for form in mention.own if form != COUNT), default=SHORT)


def count_shown(mention):
    """How many names stand before the first that the style leaves out."""
    return mention.own.index(COUNT) if COUNT in mention.own else len(mention.own)


def raised_names(mention, count, least):
    """The own forms where so many names are shown, each that is written in its least form; none
    where these are the own forms."""
    forms = []
    for place, own in enumerate(mention.own):
        if own == COUNT and place >= count:
            forms.append(COUNT)
        else:
            forms.append(max(least[place], base(mention) if own == COUNT else own))
    return None if tuple(forms) == mention.own else tuple(forms)


# By the document


def rule_of(citation):
    """The rule by which a citation adds given names, if it adds any."""
    return citation.get('givenname_rule', 'by-cite') if citation.get('add_givenname') else None


def forms_by_document(mention, mentions):
    """The least form of each name of a mention, where its style expands names in all cites of the
    document."""
    rule = rule_of(mention.citation)
    least = [SHORT] * len(mention.persons)
    if rule in OF_ALL_NAMES:
        everyone = [person for other in mentions for person in other.persons]
        least = [needed(person, everyone) for person in mention.persons]
    if rule in OF_PRIMARY_NAMES and mention.persons:
        everyone = [other.persons[0] for other in mentions if other.persons]
        least[0] = needed(mention.persons[0], everyone)
    if rule in WITH_INITIALS:
        least = [SHORT if form == FULL else form for form in least]
    return least


# Beside others


def reach(mention, by_document, citation):
    """The looks of the names that can be shown, each in the greatest form that it may get, where
    this citation says what the group of the mention may do."""
    count = len(mention.persons) if citation.get('add_names') else count_shown(mention)
    by_cite = rule_of(citation) == 'by-cite'
    answer = []
    for person, own, least in list(zip(mention.persons, mention.own, by_document))[:count]:
        usual = max(least, base(mention) if own == COUNT else own)
        answer.append(look(person, FULL if by_cite else usual))
    return answer


def first_difference(one, other):
    """The first place at which two lists differ, at which one of them may have ended; none where
    they are equal."""
    return next((place for place, (a, b) in enumerate(zip_longest(one, other)) if a != b), None)


def needs_against(mention, other, reaches, by_cite):
    """How many names a mention needs against another, and the form that the last one needs."""
    mine, others = reaches[mention], reaches[other]
    place = first_difference(mine, others)
    if place is None:
        return 0, None
    if place in (len(mine), len(others)):
        return place, None
    pair = [mention.persons[place], other.persons[place]]
    return place + 1, needed(pair[0], pair) if by_cite else None


def told_by_names(mentions, groups):
    """Of each mention the forms of its names that tell it from others, or none where these are its
    own."""
    count = {mention: 0 for mention in mentions}
    least = {mention: forms_by_document(mention, occurring(mentions)) for mention in mentions}
    by_document = {mention: tuple(forms) for mention, forms in least.items()}
    for group in groups:
        citation = (occurring(group) + group)[0].citation
        by_cite = rule_of(citation) == 'by-cite'
        reaches = {mention: reach(mention, by_document[mention], citation) for mention in group}
        for mention in group:
            for other in occurring(group):
                number, form = needs_against(mention, other, reaches, by_cite)
                count[mention] = max(count[mention], number)
                if form is not None:
                    least[mention][number - 1] = max(least[mention][number - 1], form)
    return {mention: raised_names(mention, count[mention], least[mention]) for mention in mentions}
