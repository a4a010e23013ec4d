#!/usr/bin/env python3
"""Writes the cases of what requests' bodies may hold, as a script of crates/worked_cases (to standard output): python3 tools/make_bodies.py > crates/worked_cases/data/bodies.txt

The tables are written by hand from the AWS KMS API Reference and this service's own sizes; nothing is taken
from an answer of the service. Each request is asked of an empty account by its root, so a body that is taken
goes on to the first step that refuses it there: most often the key that isn't there.

"""
import json

KEY = '10284733-057c-2825-aeb4-000000000000'
ROOT = 'arn:aws:iam::111122223333:root'
GRANT = '0' * 64
COPIES = {}           # the name of a long text: how often which text

def long(n, letter='a'):
    name = f'{letter.upper()}{n}'
    assert COPIES.setdefault(name, (n, letter)) == (n, letter)
    return f'<{name}>'

# ---- what an account without entries answers a body that is taken
NO_KEY = ('NotFoundException', 'Not found: key.')
NO_ALIAS = ('NotFoundException', 'Not found: alias.')
NO_TOKEN = ('InvalidGrantTokenException', 'A grant token names no live grant.')
NO_BLOB = ('InvalidCiphertextException', 'The ciphertext does not open.')
BAD_ARN = ('InvalidArnException', 'The ARN is not valid.')
BAD_MARKER = ('InvalidMarkerException', 'The marker is not valid.')

SER, ALIAS = 'Serialization', 'InvalidAliasName'
cases = []            # what a case shows, and its requests: (operation, body, what reading it answers, what is answered then)

def case(what, *requests):
    cases.append((what, requests))

def taken(op, body, then):
    return (op, body, 'served', then)

def refused(op, body, why):
    return (op, body, why, None)

def body(**members):
    return '{' + ','.join(f'"{k}":{v}' for k, v in members.items()) + '}'

def text(s):
    return '"' + s + '"'

# ---- the forms of a field: (JSON text, whether it is taken, the refusal else); `here` is the field's name
def key_reference(name):
    return [('7', SER), ('null', name), ('""', name), (text(long(2049)), name), (text(long(2048)), None)]

def optional(forms, name):
    return [(value, None if value == 'null' else why) for value, why in forms]

def whole(name, least, most):
    return [(str(least - 1), name), (str(least), None), (str(most), None), (str(most + 1), name), ('-1', name),
            ('1.0', SER), ('1e2', SER), ('-0', SER), ('18446744073709551616', SER), (text(str(least)), SER), ('[]', SER), ('null', None)]

MARKER = [('""', 'Marker'), ('7', SER), ('null', None), (text(long(1025, 'm')), 'Marker')]
FLAG = [('true', None), ('false', None), ('null', None), ('"true"', SER), ('1', SER)]
TOKENS = [('[]', None), ('null', None), ('["x"]', None), ('[""]', None), ('[' + ','.join(['"x"'] * 10) + ']', None),
          ('[' + ','.join(['"x"'] * 11) + ']', 'GrantTokens'), ('[1]', SER), ('[null]', SER), ('["x",{}]', SER), ('"x"', SER), ('{}', SER)]
PRINCIPAL = lambda name: [('""', name), (text(long(257, 'p')), name), (text(long(256, 'p')), None), ('7', SER), ('null', name)]
ALIAS_NAME = [('null', 'AliasName'), ('7', SER), ('""', ALIAS), ('"app"', ALIAS), ('"alias/"', ALIAS), ('"alias/aws/x"', ALIAS), ('"alias/a b"', ALIAS),
              ('"Alias/app"', ALIAS), (text('alias/' + long(251)), ALIAS), (text('alias/' + long(250)), None), ('"alias/aws"', None), ('"alias/A/9_-"', None)]
ELEVEN = ['Encrypt', 'Decrypt', 'GenerateDataKey', 'GenerateDataKeyWithoutPlaintext', 'ReEncryptFrom', 'ReEncryptTo', 'CreateGrant', 'RetireGrant', 'DescribeKey', 'GenerateMac', 'VerifyMac']
listed = lambda names: '[' + ','.join(text(n) for n in names) + ']'
OPERATIONS = [(listed([op]), None) for op in ELEVEN] + [(listed(ELEVEN), None), (listed(['Decrypt', 'Decrypt']), None), ('[]', 'Operations'), ('null', 'Operations'),
              (listed(['decrypt']), 'Operations'), (listed(['Decrypt', 'ListKeys']), 'Operations'), (listed(['']), 'Operations'), ('["Decrypt",null]', SER), ('[7]', SER),
              ('"Decrypt"', SER), ('{}', SER)]
# an encoded pair has 8 bytes beside its two texts
CONSTRAINTS = [('{}', None), ('null', None), ('{"EncryptionContextEquals":{}}', None), ('{"EncryptionContextSubset":{}}', None),
               ('{"EncryptionContextEquals":{"a":"1"}}', None), ('{"EncryptionContextSubset":{"a":"1","b":""}}', None),
               ('{"EncryptionContextEquals":null,"EncryptionContextSubset":{"a":"1"}}', None), ('{"EncryptionContextEquals":null,"EncryptionContextSubset":null}', None),
               ('{"Other":7,"EncryptionContextEquals":{"a":"1"}}', None),
               ('{"EncryptionContextEquals":{},"EncryptionContextSubset":{}}', 'Constraints'), ('{"EncryptionContextEquals":{"a":"1"},"EncryptionContextSubset":{"a":"1"}}', 'Constraints'),
               ('{"EncryptionContextEquals":{"a":"%s"}}' % long(4087, 'v'), None), ('{"EncryptionContextEquals":{"a":"%s"}}' % long(4088, 'v'), 'Constraints'),
               ('{"EncryptionContextSubset":{"a":"%s"}}' % long(4087, 'v'), None), ('{"EncryptionContextSubset":{"a":"%s"}}' % long(4088, 'v'), 'Constraints'),
               ('{"EncryptionContextSubset":{"a":"%s"}}' % long(8184, 'v'), 'Constraints'),
               ('{"EncryptionContextEquals":{"a":1}}', SER), ('{"EncryptionContextEquals":{"a":null}}', SER), ('{"EncryptionContextSubset":[]}', SER),
               ('{"EncryptionContextEquals":{"a":"1"},"EncryptionContextSubset":{"a":7}}', SER), ('[]', SER), ('"x"', SER)]
NAME = [('""', 'Name'), ('"a"', None), ('"azAZ09:/_-"', None), ('"a b"', 'Name'), ('"a.b"', 'Name'), ('"\u00e9"', 'Name'), (text(long(256, 'n')), None),
        (text(long(257, 'n')), 'Name'), ('7', SER), ('null', None)]
def tag(key, value):
    return '{"TagKey":%s,"TagValue":%s}' % (key, value)

# characters are counted, and not bytes: a key has 1 to 128, a value at most 256
TAGS = [('[]', None), ('[%s]' % tag('"a"', '"b"'), None), ('[%s]' % tag('"a"', '""'), None), ('[{"TagValue":"b","Other":7,"TagKey":"a"}]', None),
        ('[%s,%s]' % (tag('"a"', '"b"'), tag('"b"', '"a"')), None), ('[%s]' % tag(text(long(128)), text(long(256, 'v'))), None),
        ('[%s]' % tag(text(long(128, '\u00e9')), text(long(256, '\u00e9'))), None), ('[%s]' % tag('""', '"b"'), 'Tags'), ('[%s]' % tag(text(long(129)), '"b"'), 'Tags'),
        ('[%s]' % tag(text(long(129, '\u00e9')), '"b"'), 'Tags'), ('[%s]' % tag('"a"', text(long(257, 'v'))), 'Tags'), ('[{}]', 'Tags'), ('[{"TagKey":"a"}]', 'Tags'), ('[{"TagValue":"b"}]', 'Tags'),
        ('[%s]' % tag('null', '"b"'), 'Tags'), ('[%s]' % tag('"a"', 'null'), 'Tags'), ('[{"tagKey":"a","TagValue":"b"}]', 'Tags'), ('[%s,{}]' % tag('"a"', '"b"'), 'Tags'),
        ('[%s]' % tag('7', '"b"'), SER), ('[%s]' % tag('"a"', '7'), SER), ('[%s]' % tag('"a"', '["b"]'), SER), ('[{},%s]' % tag('"a"', 'true'), SER), ('[null]', SER), ('[7]', SER), ('["a"]', SER), ('[[]]', SER),
        ('[%s,null]' % tag('""', '"b"'), SER), ('{}', SER), (tag('"a"', '"b"'), SER), ('"a"', SER), ('7', SER),
        ('[' + ','.join(tag(text(f'k{n}'), '""') for n in range(50)) + ']', None), ('[' + ','.join(tag(text(f'k{n}'), '""') for n in range(51)) + ']', 'Tags')]
TAG_KEYS = [('["a"]', None), ('["a","a"]', None), ('["aws:a"]', None), ('[%s]' % text(long(128)), None), ('[%s]' % text(long(128, '\u00e9')), None), ('[' + ','.join(['"a"'] * 50) + ']', None), ('[]', 'TagKeys'),
            ('[""]', 'TagKeys'), ('["a",""]', 'TagKeys'), ('[%s]' % text(long(129)), 'TagKeys'), ('[%s]' % text(long(129, '\u00e9')), 'TagKeys'), ('[' + ','.join(['"a"'] * 51) + ']', 'TagKeys'), ('null', 'TagKeys'),
            ('[7]', SER), ('["",null]', SER), ('"a"', SER), ('{}', SER), ('7', SER)]

def sealed(name, most):
    """Bytes in base64, one or more: a text of `most` zero bytes is the longest."""
    full = long(most // 3 * 4, 'A') + {0: '', 1: 'AA==', 2: 'AAA='}[most % 3]
    more = long((most + 1) // 3 * 4, 'A') + {0: '', 1: 'AA==', 2: 'AAA='}[(most + 1) % 3]
    return [('""', name), ('"AA=="', None), (text(full), None), (text(more), name), ('null', name), ('7', SER), ('["AA=="]', SER), ('"A"', SER), ('"AA"', SER), ('"AB=="', SER), ('"AA== "', SER), ('"-_=="', SER)]

DESCRIPTION = [('""', None), ('"\u00e9"', None), (text(long(8192, 'd')), None), (text(long(8193, 'd')), 'Description'), ('7', SER), ('null', 'Description')]

def forms(op, what, field, values, then, **others):
    """A case of a field's forms, beside other members that are valid; `then` may be a function of the value."""
    requests = []
    for value, why in values:
        members = dict(others)
        members[field] = value
        answer = then(value) if callable(then) else then
        requests.append(taken(op, body(**members), answer) if why is None else refused(op, body(**members), why))
    case(what, *requests)

K = text(KEY)
# ---- one key and nothing else
for op in ['EnableKey', 'DisableKey', 'CancelKeyDeletion', 'DisableKeyRotation', 'RotateKeyOnDemand', 'GetKeyRotationStatus']:
    forms(op, f'{op}: forms of KeyId', 'KeyId', key_reference('KeyId'), NO_KEY)
    case(f'{op}: bodies', refused(op, '{}', 'KeyId'), refused(op, '[]', SER), refused(op, 'null', SER), taken(op, body(KeyId=K, Unknown='7'), NO_KEY),
         taken(op, body(KeyId='7', **{'KeyId ': '1'}).replace('"KeyId ":1', f'"KeyId":{K}'), NO_KEY))
# ---- numbers with defaults
forms('ScheduleKeyDeletion', 'ScheduleKeyDeletion: forms of PendingWindowInDays', 'PendingWindowInDays', whole('PendingWindowInDays', 7, 30), NO_KEY, KeyId=K)
case('ScheduleKeyDeletion: two faults', refused('ScheduleKeyDeletion', body(PendingWindowInDays='6'), 'KeyId'), refused('ScheduleKeyDeletion', body(PendingWindowInDays='31', KeyId='""'), 'KeyId'),
     refused('ScheduleKeyDeletion', body(KeyId='""', PendingWindowInDays='"7"'), SER), taken('ScheduleKeyDeletion', body(KeyId=K), NO_KEY))
forms('EnableKeyRotation', 'EnableKeyRotation: forms of RotationPeriodInDays', 'RotationPeriodInDays', whole('RotationPeriodInDays', 90, 2560), NO_KEY, KeyId=K)
case('EnableKeyRotation: two faults', refused('EnableKeyRotation', body(RotationPeriodInDays='89'), 'KeyId'), refused('EnableKeyRotation', body(RotationPeriodInDays='{}', KeyId='""'), SER),
     taken('EnableKeyRotation', body(KeyId=K), NO_KEY))
forms('UpdateKeyDescription', 'UpdateKeyDescription: forms of Description', 'Description', DESCRIPTION, NO_KEY, KeyId=K)
case('UpdateKeyDescription: two faults', refused('UpdateKeyDescription', '{}', 'KeyId'), refused('UpdateKeyDescription', body(KeyId=K), 'Description'),
     refused('UpdateKeyDescription', body(Description=text(long(8193, 'd'))), 'KeyId'), refused('UpdateKeyDescription', body(Description='7'), SER))
# ---- aliases
forms('CreateAlias', 'CreateAlias: forms of AliasName', 'AliasName', ALIAS_NAME, NO_KEY, TargetKeyId=K)
forms('UpdateAlias', 'UpdateAlias: forms of AliasName', 'AliasName', ALIAS_NAME, NO_ALIAS, TargetKeyId=K)
forms('DeleteAlias', 'DeleteAlias: forms of AliasName', 'AliasName', ALIAS_NAME, NO_ALIAS)
for op, then in [('CreateAlias', NO_KEY), ('UpdateAlias', NO_ALIAS)]:
    forms(op, f'{op}: forms of TargetKeyId', 'TargetKeyId', key_reference('TargetKeyId'), then, AliasName='"alias/app"')
    case(f'{op}: two faults', refused(op, '{}', 'AliasName'), refused(op, body(AliasName='"app"'), ALIAS), refused(op, body(TargetKeyId='""'), 'AliasName'),
         refused(op, body(AliasName='"app"', TargetKeyId='""'), ALIAS), refused(op, body(AliasName='"app"', TargetKeyId='7'), SER), refused(op, body(AliasName='"alias/app"'), 'TargetKeyId'))
case('DeleteAlias: bodies', refused('DeleteAlias', '{}', 'AliasName'), taken('DeleteAlias', body(AliasName='"alias/app"', TargetKeyId='7'), NO_ALIAS))
# ---- lists
EMPTY = lambda name: '{"%s":[],"Truncated":false}' % name
for op, name, most, others, then in [('ListKeys', 'Keys', 1000, {}, EMPTY('Keys')), ('ListAliases', 'Aliases', 100, {}, EMPTY('Aliases')),
        ('ListRetirableGrants', 'Grants', 100, {'RetiringPrincipal': text(ROOT)}, EMPTY('Grants')), ('ListKeyPolicies', None, 1000, {'KeyId': K}, NO_KEY),
        ('ListKeyRotations', None, 1000, {'KeyId': K}, NO_KEY), ('ListGrants', None, 100, {'KeyId': K}, NO_KEY)]:
    forms(op, f'{op}: forms of Limit', 'Limit', whole('Limit', 1, most), then, **others)
    forms(op, f'{op}: forms of Marker', 'Marker', MARKER, then, **others)
    marked = lambda good: then if then == NO_KEY else (then if good else BAD_MARKER)
    case(f'{op}: markers', *[taken(op, body(**others, Marker=text(m)), marked(good)) for m, good in
         [('0', True), ('000000000000000001', True), ('999999999999999999', True), ('0000000000000000001', False), ('x', False), ('-1', False), (' 1', False), ('1.0', False), (long(1024, 'm'), False)]])
    case(f'{op}: two faults', refused(op, body(**others, Limit='0', Marker='""'), 'Limit'), refused(op, body(**others, Marker='""', Limit=str(most + 1)), 'Limit'),
         refused(op, body(**others, Limit='0', Marker='7'), SER))
for op, field in [('ListKeyPolicies', 'KeyId'), ('ListKeyRotations', 'KeyId'), ('ListGrants', 'KeyId'), ('ListRetirableGrants', 'RetiringPrincipal')]:
    case(f'{op}: what it lists of is required', refused(op, '{}', field), refused(op, body(Limit='0'), field), refused(op, body(Limit='"1"'), SER))
for op in ['ListKeyPolicies', 'ListKeyRotations', 'ListGrants']:
    forms(op, f'{op}: forms of KeyId', 'KeyId', key_reference('KeyId'), NO_KEY)
forms('ListAliases', 'ListAliases: forms of KeyId', 'KeyId', optional(key_reference('KeyId'), 'KeyId'), lambda v: EMPTY('Aliases') if v == 'null' else NO_KEY)
case('ListAliases: two faults in KeyId and Limit', refused('ListAliases', body(Limit='0', KeyId='""'), 'KeyId'))
forms('ListRetirableGrants', 'ListRetirableGrants: forms of RetiringPrincipal', 'RetiringPrincipal', PRINCIPAL('RetiringPrincipal'), BAD_ARN)
forms('ListGrants', 'ListGrants: forms of GranteePrincipal', 'GranteePrincipal', optional(PRINCIPAL('GranteePrincipal'), 'GranteePrincipal'), NO_KEY, KeyId=K)
forms('ListGrants', 'ListGrants: forms of GrantId', 'GrantId', [('""', None), (text(GRANT), None), (text(long(9000, 'g')), None), ('null', None), ('7', SER)], NO_KEY, KeyId=K)
case('ListGrants: two faults', refused('ListGrants', body(KeyId=K, GranteePrincipal='""', Marker='""'), 'Marker'), refused('ListGrants', body(KeyId=K, GranteePrincipal='""', GrantId='7'), SER))
# ---- grants
VALID = dict(KeyId=K, GranteePrincipal=text(ROOT), Operations='["Decrypt"]')
def but(**others):
    members = dict(VALID)
    members.update(others)
    return members
def creating(field, values):
    forms('CreateGrant', f'CreateGrant: forms of {field}', field, values, NO_KEY, **{k: v for k, v in VALID.items() if k != field})
creating('KeyId', key_reference('KeyId'))
creating('GranteePrincipal', PRINCIPAL('GranteePrincipal'))
creating('RetiringPrincipal', optional(PRINCIPAL('RetiringPrincipal'), 'RetiringPrincipal'))
creating('Operations', OPERATIONS)
creating('Constraints', CONSTRAINTS)
creating('GrantTokens', TOKENS)
creating('Name', NAME)
creating('DryRun', FLAG)
case('CreateGrant: required fields', refused('CreateGrant', '{}', 'KeyId'), refused('CreateGrant', body(KeyId=K), 'GranteePrincipal'),
     refused('CreateGrant', body(KeyId=K, GranteePrincipal=text(ROOT)), 'Operations'), taken('CreateGrant', body(**VALID), NO_KEY))
BAD = [('KeyId', '""'), ('GranteePrincipal', '""'), ('RetiringPrincipal', '""'), ('Operations', '[]'), ('Constraints', '{"EncryptionContextEquals":{},"EncryptionContextSubset":{}}'),
       ('GrantTokens', '[' + ','.join(['"x"'] * 11) + ']'), ('Name', '""')]
case('CreateGrant: two faults, the earlier field is named', *[refused('CreateGrant', body(**but(**{b: w, a: v})), a) for (a, v), (b, w) in zip(BAD, BAD[1:])])
case('CreateGrant: a wrong type in the last field stands before a fault in each other', *[refused('CreateGrant', body(**but(**{a: v, 'DryRun': '0'})), SER) for a, v in BAD])
case('RetireGrant: by the token alone, or by key and id', refused('RetireGrant', '{}', 'GrantToken'), taken('RetireGrant', body(GrantToken=text(GRANT)), NO_TOKEN),
     taken('RetireGrant', body(GrantToken='""'), NO_TOKEN), taken('RetireGrant', body(GrantToken=text(long(9000, 'g'))), NO_TOKEN),
     taken('RetireGrant', body(KeyId=K, GrantId=text(GRANT)), NO_KEY), taken('RetireGrant', body(KeyId=K, GrantId='""'), NO_KEY),
     refused('RetireGrant', body(KeyId=K), 'GrantToken'), refused('RetireGrant', body(GrantId=text(GRANT)), 'GrantToken'),
     refused('RetireGrant', body(GrantToken=text(GRANT), KeyId=K), 'GrantToken'), refused('RetireGrant', body(GrantToken=text(GRANT), GrantId=text(GRANT)), 'GrantToken'),
     refused('RetireGrant', body(GrantToken=text(GRANT), KeyId=K, GrantId=text(GRANT)), 'GrantToken'),
     taken('RetireGrant', body(GrantToken='null', KeyId=K, GrantId=text(GRANT)), NO_KEY), taken('RetireGrant', body(GrantToken=text(GRANT), KeyId='null', GrantId='null'), NO_TOKEN),
     refused('RetireGrant', body(GrantToken='null', KeyId='null', GrantId=text(GRANT)), 'GrantToken'))
case('RetireGrant: two faults', refused('RetireGrant', body(GrantToken=text(GRANT), KeyId='""'), 'GrantToken'), refused('RetireGrant', body(KeyId='""'), 'GrantToken'),
     refused('RetireGrant', body(KeyId='""', GrantId=text(GRANT)), 'KeyId'), refused('RetireGrant', body(KeyId=text(long(2049)), GrantId='""'), 'KeyId'),
     refused('RetireGrant', body(GrantToken='7', KeyId='""'), SER), refused('RetireGrant', body(GrantId='7'), SER), refused('RetireGrant', body(KeyId='7'), SER),
     refused('RetireGrant', body(DryRun='"x"'), SER))
forms('RetireGrant', 'RetireGrant: forms of DryRun', 'DryRun', FLAG, NO_TOKEN, GrantToken=text(GRANT))
forms('RevokeGrant', 'RevokeGrant: forms of KeyId', 'KeyId', key_reference('KeyId'), NO_KEY, GrantId=text(GRANT))
forms('RevokeGrant', 'RevokeGrant: forms of GrantId', 'GrantId', [('""', None), (text(long(9000, 'g')), None), ('null', 'GrantId'), ('7', SER)], NO_KEY, KeyId=K)
forms('RevokeGrant', 'RevokeGrant: forms of DryRun', 'DryRun', FLAG, NO_KEY, KeyId=K, GrantId=text(GRANT))
case('RevokeGrant: two faults', refused('RevokeGrant', '{}', 'KeyId'), refused('RevokeGrant', body(KeyId=K), 'GrantId'), refused('RevokeGrant', body(GrantId='7'), SER))
# ---- grant tokens elsewhere
CONTEXT_TOO_LONG = '{"a":"%s"}' % long(8184, 'v')
for op, others, then, before, after in [
        ('DescribeKey', dict(KeyId=K), NO_KEY, ('KeyId', '""'), None),
        ('Encrypt', dict(KeyId=K, Plaintext='"aGVsbG8="'), NO_KEY, ('EncryptionContext', CONTEXT_TOO_LONG), None),
        ('Decrypt', dict(CiphertextBlob='"aGVsbG8="'), NO_BLOB, ('EncryptionContext', CONTEXT_TOO_LONG), ('KeyId', '""')),
        ('ReEncrypt', dict(CiphertextBlob='"aGVsbG8="', DestinationKeyId=K), NO_BLOB, ('DestinationEncryptionContext', CONTEXT_TOO_LONG), None),
        ('GenerateDataKey', dict(KeyId=K, NumberOfBytes='5'), NO_KEY, ('NumberOfBytes', '0'), None),
        ('GenerateDataKeyWithoutPlaintext', dict(KeyId=K, NumberOfBytes='5'), NO_KEY, ('NumberOfBytes', '0'), None)]:
    forms(op, f'{op}: forms of GrantTokens', 'GrantTokens', TOKENS, then, **others)
    eleven = TOKENS[5][0]
    requests = [refused(op, body(**{**others, 'GrantTokens': eleven, before[0]: before[1]}), before[0])]
    if after:
        requests.append(refused(op, body(**{**others, after[0]: after[1], 'GrantTokens': eleven}), 'GrantTokens'))
    case(f'{op}: two faults with GrantTokens', *requests)
# ---- MACs
MESSAGE, ALGORITHM = '"aGVsbG8="', '"HMAC_SHA_256"'
for op, mac in [('GenerateMac', {}), ('VerifyMac', {'Mac': '"AA=="'})]:
    valid = dict(Message=MESSAGE, KeyId=K, MacAlgorithm=ALGORITHM) | mac
    for field, values in [('Message', sealed('Message', 4096)), ('KeyId', key_reference('KeyId')), ('MacAlgorithm', [('""', None), ('"x"', None), (text(long(9000)), None), ('null', 'MacAlgorithm'), ('7', SER), ('[]', SER)]),
                          *([('Mac', sealed('Mac', 6144))] if mac else []), ('GrantTokens', TOKENS), ('DryRun', FLAG)]:
        forms(op, f'{op}: forms of {field}', field, values, NO_KEY, **{k: v for k, v in valid.items() if k != field})
    required = ['Message', 'KeyId', 'MacAlgorithm', *mac]
    case(f'{op}: required fields', *[refused(op, body(**{k: valid[k] for k in required[:n]}), required[n]) for n in range(len(required))], taken(op, body(**valid), NO_KEY))
    bad = [('Message', '""'), ('KeyId', '""'), ('MacAlgorithm', 'null'), *([('Mac', '""')] if mac else []), ('GrantTokens', TOKENS[5][0])]
    case(f'{op}: two faults, the earlier field is named', *[refused(op, body(**(valid | {b: w, a: v})), a) for (a, v), (b, w) in zip(bad, bad[1:])])
    case(f'{op}: a wrong type in the last field stands before a fault in each other', *[refused(op, body(**(valid | {a: v, 'DryRun': '0'})), SER) for a, v in bad])
# ---- tags
NOT_MADE = ('UnsupportedOperationException', 'Field XksKeyId is not supported.')
forms('CreateKey', 'CreateKey: forms of Tags', 'Tags', TAGS + [('null', None)], NOT_MADE, XksKeyId='"x"')
case('CreateKey: two faults with Tags', refused('CreateKey', body(Policy='""', Tags='[{}]'), 'Policy'), refused('CreateKey', body(Description=text(long(8193, 'd')), Tags='[{}]'), 'Description'),
     refused('CreateKey', body(Tags='[{}]', KeyUsage='"SIGN_VERIFY"'), 'Tags'), refused('CreateKey', body(Tags='[{}]', XksKeyId='7'), SER), refused('CreateKey', body(Policy='""', Tags='[7]'), SER))
forms('TagResource', 'TagResource: forms of KeyId', 'KeyId', key_reference('KeyId'), NO_KEY, Tags='[]')
forms('TagResource', 'TagResource: forms of Tags', 'Tags', TAGS + [('null', 'Tags')], NO_KEY, KeyId=K)
case('TagResource: two faults', refused('TagResource', '{}', 'KeyId'), refused('TagResource', body(KeyId=K), 'Tags'), refused('TagResource', body(KeyId='""', Tags='[{}]'), 'KeyId'),
     refused('TagResource', body(KeyId='""', Tags='[7]'), SER), refused('TagResource', body(KeyId='7', Tags='[{}]'), SER))
forms('UntagResource', 'UntagResource: forms of KeyId', 'KeyId', key_reference('KeyId'), NO_KEY, TagKeys='["a"]')
forms('UntagResource', 'UntagResource: forms of TagKeys', 'TagKeys', TAG_KEYS, NO_KEY, KeyId=K)
case('UntagResource: two faults', refused('UntagResource', '{}', 'KeyId'), refused('UntagResource', body(KeyId=K), 'TagKeys'), refused('UntagResource', body(KeyId='""', TagKeys='[]'), 'KeyId'),
     refused('UntagResource', body(KeyId='""', TagKeys='[7]'), SER), refused('UntagResource', body(KeyId=K, Tags='[]'), 'TagKeys'))
forms('ListResourceTags', 'ListResourceTags: forms of KeyId', 'KeyId', key_reference('KeyId'), NO_KEY)
forms('ListResourceTags', 'ListResourceTags: forms of Limit', 'Limit', whole('Limit', 1, 50), NO_KEY, KeyId=K)
forms('ListResourceTags', 'ListResourceTags: forms of Marker', 'Marker', MARKER, NO_KEY, KeyId=K)
case('ListResourceTags: two faults', refused('ListResourceTags', '{}', 'KeyId'), refused('ListResourceTags', body(KeyId='""', Limit='0'), 'KeyId'), refused('ListResourceTags', body(KeyId=K, Limit='0', Marker='""'), 'Limit'),
     refused('ListResourceTags', body(KeyId=K, Limit='51', Marker='7'), SER))

def answer(why, then):
    if why == 'served':
        return f'< 200 0 {then}' if isinstance(then, str) else f'< 400 {then[0]} 0 {then[1]}'
    if why == SER:
        return '< 400 SerializationException 0 The body is not the JSON that the operation takes.'
    if why == ALIAS:
        return '< 400 InvalidAliasNameException 0 The alias name is not valid.'
    return f'< 400 ValidationException 0 Field {why} is not valid.'

print('# What the bodies of requests may hold: each field\'s forms, and which of two faults is named. Every request is asked of an account without')
print('# entries by its root, so a body that is taken is refused by the first step that looks at the account, or lists nothing. Written by')
print('# hand from the AWS KMS API Reference and this service\'s sizes, as tables of tools/make_bodies.py.')
USED = ''.join(sent for _, requests in cases for _, sent, _, _ in requests)
for name, (n, letter) in sorted(COPIES.items()):
    if f'<{name}>' in USED:
        print(f'copies {name} {n} {letter}')
for what, requests in cases:
    print(f'\ncase {what}\nclock 1700000000 Tue, 14 Nov 2023 22:13:20 GMT')
    for op, sent, why, then in requests:
        print(f'> {op} {sent}\n{answer(why, then)}')
    print('end Ended')
