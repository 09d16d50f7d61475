"""SMB 2.1 leases and durable opens by libsmblease, which is proved: messages, create contexts, and the client and the server as
machines, and a manager of leases (docs/PYTHON.md), whose decisions are in smblease.manager_decisions."""
from smblease.client import Client, lease_key
from smblease.client_versions import ClientVersions
from smblease.contexts import Context, CreateAnswer, CreateAsk, append_context, each_context, find_context, replace_data
from smblease.faults import Fault, KeptFault, MachineLost
from smblease.manager import Manager
from smblease.manager_listings import Change, ListedLease, ListedOpen, ListedRequest, WaitingKind
from smblease.manager_questions import HeldLease
from smblease.messages import Acknowledgment, MessageKind, Notification, Response
from smblease.outs import Changed, Opened, Out, Sent
from smblease.replies import (AcknowledgeDone, AcknowledgeFailed, Break, Closed, CloseFailed, Created, CreateFailed, ReadDone,
                              ReadFailed, Reply, WriteDone, WriteFailed)
from smblease.requests import AcknowledgeRequest, CloseRequest, CreateRequest, ReadRequest, Request, WriteRequest
from smblease.server import Server
from smblease.steps import (Answer, Believes, CachedRead, Done, Failed, FileBytes, Note, Quiet, Refusal, Refused, Settled,
                            Settlement, Step, Waiting, Wrote)
from smblease.values import (Access, Extent, LeaseState, Order, Rise, Rules, Share, Status, granted_form, is_within,
                             needs_acknowledgment, opens_conflict)
from smblease.version import VERSION
from smblease.versions import Versions, VersionsAsk

__version__ = VERSION
__all__ = [
    "Access", "AcknowledgeDone", "AcknowledgeFailed", "AcknowledgeRequest", "Acknowledgment", "Answer", "Believes", "Break",
    "CachedRead", "Change", "Changed", "Client", "ClientVersions", "CloseFailed", "CloseRequest", "Closed", "Context",
    "CreateAnswer", "CreateAsk", "CreateFailed", "CreateRequest", "Created", "Done", "Extent", "Failed", "Fault", "FileBytes",
    "HeldLease", "KeptFault", "LeaseState", "ListedLease", "ListedOpen", "ListedRequest", "MachineLost", "Manager", "MessageKind",
    "Note", "Notification", "Opened", "Order", "Out", "Quiet", "ReadDone", "ReadFailed", "ReadRequest", "Refusal", "Refused",
    "Reply", "Request", "Response", "Rise", "Rules", "Sent", "Server", "Settled", "Settlement", "Share", "Status", "Step",
    "Versions", "VersionsAsk", "Waiting", "WaitingKind", "WriteDone", "WriteFailed", "WriteRequest", "Wrote", "append_context",
    "each_context", "find_context", "granted_form", "is_within", "lease_key", "needs_acknowledgment", "opens_conflict",
    "replace_data",
]
