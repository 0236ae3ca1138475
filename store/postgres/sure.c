/* ledger_alone, ledger_sure: what play needs of the server and SQL can't say. */
#include "extension.h"

#include "access/xact.h"
#include "access/xlog.h"
#include "replication/syncrep.h"
#include "replication/walsender.h"
#include "replication/walsender_private.h"
#include "storage/lwlock.h"

/* An ERROR inside BEGIN .. COMMIT: for a function whose lock must end with its own statement. */
FUNCTION(tl_alone) {
    (void)fcinfo;
    if (IsTransactionBlock())
        ereport(ERROR, (errcode(ERRCODE_ACTIVE_SQL_TRANSACTION),
                        errmsg("only as a statement of its own, outside of BEGIN and COMMIT")));
    PG_RETURN_VOID();
}

/* Whether the synchronous standbys, where there are such, are known to have what was committed. */
static bool on_standbys(XLogRecPtr to) {
    int mode = synchronous_commit == SYNCHRONOUS_COMMIT_REMOTE_APPLY ? SYNC_REP_WAIT_APPLY : SYNC_REP_WAIT_FLUSH;
    bool there;
    if (!SyncRepRequested() || !SyncRepStandbyNames || !SyncRepStandbyNames[0]) return true;
    LWLockAcquire(SyncRepLock, LW_SHARED);
    there = WalSndCtl->lsn[mode] >= to;
    LWLockRelease(SyncRepLock);
    return there;
}

/* Waits until all that this session committed is on disk, and on the synchronous standbys. So play may commit without
 * waiting, which frees its lock before the disk has answered, and its caller still gets an answer that holds. A wait that was
 * cut short is an ERROR here; at a COMMIT PostgreSQL makes it a mere WARNING. */
FUNCTION(tl_sure) {
    XLogRecPtr to = XactLastCommitEnd;
    (void)fcinfo;
    /* the second: in a pipeline, without a Sync in between */
    if (IsTransactionBlock() || TransactionIdIsValid(GetTopTransactionIdIfAny()))
        ereport(ERROR, (errcode(ERRCODE_ACTIVE_SQL_TRANSACTION), errmsg("what went before is not committed yet")));
    if (XLogRecPtrIsInvalid(to) || RecoveryInProgress()) PG_RETURN_VOID();
    XLogFlush(to);
    HOLD_INTERRUPTS(); /* as at a COMMIT: the wait looks at cancel and terminate itself */
    SyncRepWaitForLSN(to, true);
    RESUME_INTERRUPTS();
    if (!on_standbys(to))
        ereport(ERROR, (errcode(ERRCODE_TRANSACTION_RESOLUTION_UNKNOWN),
                        errmsg("committed here, but not known to be on the standby")));
    PG_RETURN_VOID();
}
