"""The words of papers 01 and 02: kinds of tickets, flags, refusals with their codes, reports."""

KINDS = {
    1: "cover-in",
    2: "cover-out",
    3: "order",
    4: "answer",
    5: "recall",
    6: "return",
    7: "decline",
    8: "inquiry",
    9: "cut",
    10: "confirm",
    11: "tick",
}

# The fields that each kind lists; time always counts.
LISTED = {
    1: ("sender", "amount"),
    2: ("sender", "amount"),
    3: ("sender", "payee", "amount", "txid", "iban"),
    4: ("sender", "flag", "payer", "txid"),
    5: ("sender", "flag", "payer", "txid"),
    6: ("sender", "amount", "payer", "txid"),
    7: ("sender", "flag", "payer", "txid"),
    8: ("sender", "payer", "txid"),
    9: (),
    10: ("sender", "amount"),
    11: (),
}

FLAGS = {
    4: {1: "yes", 2: "no"},
    5: {1: "TECH", 2: "FRAD", 3: "AC03", 4: "AM09"},
    7: {1: "CUST", 2: "LEGL", 3: "AC04", 4: "AM04", 5: "NOAS", 6: "NOOR", 7: "ARDT"},
}

PARTICIPANT_KINDS = {0: "bank", 1: "linked"}

# Number: code (empty where the paper gives none) and meaning, in the order in which they are looked at; 23 to 25 are a message's.
REFUSALS = {
    1: ("", "the file is below 12 bytes"),
    2: ("", "participants are not 1 to 32, routes above 64 or tickets above 512"),
    3: ("", "offsets or file length are other than the layout gives"),
    4: ("", "a participant row is wrong: BIC, kind, wish, opening, spare, or an earlier row's BIC"),
    5: ("", "a route row is wrong: BIC, an earlier row's BIC, kind, where it leads, or spare"),
    6: ("", "the report buffer is below 6,528 bytes"),
    7: ("XT33", "the ticket is not 108 bytes, or its kind, flag, BIC, payer's BIC, TxId or an unused field is wrong"),
    8: ("XD19", "the IBAN is wrong"),
    9: ("AM01", "the amount is zero"),
    10: ("AM02", "the amount is above its kind's limit"),
    11: ("DT01", "the time is before the clock"),
    12: ("", "the sender is no participant"),
    13: ("AM05", "an order with this payer and TxId is already held"),
    14: ("PY01", "no route row has the payee BIC"),
    15: ("TECH", "256 orders are held"),
    16: ("AG09", "no order with this payer and TxId is held"),
    17: ("XT87", "the sender is the wrong party"),
    18: ("XT75", "the order's status or recall mark is not as the step needs"),
    26: ("XT86", "the recall is too late"),
    19: ("XT77", "the return is above the order"),
    20: ("AM04", "available cover is below the amount"),
    21: ("", "a cut with held or open debit somewhere, a confirm with neither or with an amount that its rule excludes"),
    22: ("", "all cover together would be above 10^18 cents"),
    23: ("", "the text is too long, its elements are not balanced or too deep, or it has a form that is not allowed"),
    24: ("", "an element of a named path is missing, twice in its parent or out of order, or a named text holds an element"),
    25: ("", "the text or the attributes of the amount are wrong, or it is zero"),
}

# What a refusal means for one kind, where the paper says it by kind.
MEANING_BY_KIND = {
    (21, 9): "somebody has held cover or an open debit",
    (21, 10): "the sender has neither held cover nor an open debit, or the amount is not as it must be",
}

REPORTS = {
    1: "an order to answer",
    2: "the order is settled",
    3: "the order is refused by the payee",
    4: "the order has expired",
    5: "the order is recalled",
    6: "the order is returned",
    7: "the recall is declined",
    8: "an answer is still due, to the order or to its recall",
    9: "the order is still waiting",
    10: "the cut left an open debit",
    11: "the cut set cover aside as held",
}

ENDINGS = (2, 3, 4)
CUT_REPORTS = (10, 11)
NO_ORDER = 65535
LIMIT = 20
RECALL_LIMIT = 864000  # a recall so many seconds after the settlement is too late
