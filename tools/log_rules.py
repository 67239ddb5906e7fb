"""The rules of this project by which a device may differ, and which of them the standards demand.

Each rule that is this project's own stands with words of the document that says so. `.ci/run logs` compares the table with docs/formats.md,
docs/DECISIONS.md and the other pages, and with the causes of docs/answers.md."""
import typing

BASS = 'Broadcast Audio Scan Service 1.0'
ATT = 'Core 5.2, volume 3 part F'


class Rule(typing.NamedTuple):
    """A rule: what it says, the standard that demands it or '', and for one that is this project's own a document with words in it."""
    says: str
    standard: str = ''
    document: str = ''
    words: str = ''

    @property
    def is_demanded(self) -> bool:
        return bool(self.standard)

    def source(self) -> str:
        return f'demanded by {self.standard}' if self.standard else f'this project\'s own, docs/{self.document}'


def cause(says: str) -> Rule:
    return Rule(says, document='trust.md', words='it is the order in which causes, faults and rows of a table are tested')


RULES = {
    # Replies to a write, by the cause that `reply` names.
    'Opcode': Rule('an opcode above 5 is answered 80', f'{BASS}, section 3.1.1'),
    'SourceUnknown': Rule('an operation on a Source_ID that no slot has is answered 81', f'{BASS}, section 3.1.1'),
    'Empty': cause('a write of no octets is answered fc'),
    'Length': cause('an operation of another length than its fields have is answered fc'),
    'Rfu': cause('a reserved value in an operation is answered fc'),
    'BisTwice': cause('a stream that two subgroups want is answered fc'),
    'Known': cause('an Add Source of a source that a slot has is answered fc'),
    'NoRoom': cause('an Add Source without an empty slot is answered fc'),
    'ValueTooLong': cause('an operation whose value would pass 512 octets is answered fc'),
    'StillSynced': cause('a Remove Source of a source that the sink is synchronized to is answered fc'),
    'Taken': Rule('an operation with good fields, on a source that is there, is accepted', document='answers.md',
                  words='`reply N ok` or `reply N CODE CAUSE`'),
    'Codes': Rule('80 says that an opcode is unknown and 81 that a Source_ID is, and nothing else', f'{BASS}, section 3.1.1'),
    'NoResponse': Rule('each request has a response', f'{ATT}, section 3.4.5'),
    # Notices.
    'NoNotice': Rule('each change of a slot is told to each client that asked for notices', f'{BASS}, section 3.2'),
    'OneNotice': Rule('a change is told by one notice', document='scenario-language.md',
                      words='by one notice with the slot\'s whole value'),
    'NotAsked': Rule('a client that set no notices gets none', 'Core 5.2, volume 3 part G, section 3.3.3.3'),
    'Cut': Rule('a notice has the first MTU - 3 octets of the value, or the whole value', f'{ATT}, section 3.4.7.1'),
    # Values of a slot.
    'Layout': Rule('a value is empty or one receive state, without reserved values and with nothing behind it', f'{BASS}, section 3.2'),
    'Source': Rule('address type, address, SID and Broadcast_ID are those of the Add Source', f'{BASS}, section 3.2'),
    'SourceId': Rule('a source keeps its Source_ID, and no other source has it', f'{BASS}, section 3.2'),
    'Filled': Rule('a source stands in a slot from an accepted Add Source on until an accepted Remove Source', f'{BASS}, section 3.2'),
    'Slot': Rule('a new source gets the lowest empty slot', document='answers.md', words='fills the lowest empty slot'),
    'Unasked': Rule('a slot is filled by an Add Source alone', document='scenario-language.md',
                    words='a write added the source to one of its slots'),
    'PaSync': Rule('PA_Sync_State says whether the sink is synchronized to the train', f'{BASS}, section 3.2'),
    'Encryption': Rule('BIG_Encryption says whether the group is encrypted', f'{BASS}, section 3.2'),
    'BisSync': Rule('BIS_Sync_State has the streams that are received, which the client asked for', f'{BASS}, section 3.2'),
    'Streams': Rule('the first streams that are wanted and that a record fits are taken', document='trust.md',
                    words='by which rule capabilities match a stream, and which streams come first where not all fit'),
    'Modified': Rule('a Modify Source with PA_Sync 0 ends train and group at once, one with other BIS_Sync values the group',
                     document='trust.md', words='what a Modify Source does to the synchronization of a sink'),
    'OneTrain': Rule('a sink is on one train at a time', document='scenario-language.md', words='on one train at a time'),
    'Subgroups': Rule('the state has the subgroups of the last operation on the source', f'{BASS}, section 3.2'),
    'Metadata': Rule('the metadata is as it was written', document='formats.md', words='the metadata, which is carried unread'),
}
SECURITY = {0x02: 'read not permitted', 0x03: 'write not permitted', 0x05: 'authentication', 0x08: 'authorization', 0x0C: 'key size',
            0x0F: 'encryption'}
LEFT_OUT = {
    'past': 'PAST: a SyncInfo that was asked for, or could not be had',
    'failed': 'a train to which synchronization failed',
    'code': 'decryption: a Broadcast_Code, and what became of it',
    'security': 'security: a request that was refused for want of it',
    'scan': 'scanning for a client',
    'radio': 'a synchronization as it was told, since the device\'s radio isn\'t in the log',
    'mtu': 'an operation of more than 512 octets',
    'train': 'a train that no line can say',
    'slots': 'slots above the eighth',
    'sinks': 'devices above the eighth',
    'links': 'clients above the fourth at one time',
}
OWN_CAUSES = ('NoDecrypt',)  # what is left out, and so no difference
