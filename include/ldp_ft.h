/*
 * ldp_ft.h: the fault-tolerant LDP session of a cabinet (RFC 3036 with draft-ietf-mpls-ldp-ft-02 or RFC 3479), one
 * session with one peer. ldp_ft_text.h has the numbers below in words; examples/ has a cabinet that uses all of this.
 *
 * WHAT CHANGED IN 5.0.0
 *   - The image has 68 blocks, 34,816 bytes: blocks 66 and 67 are an index of the labels by their prefix. A STORED
 *     IMAGE OF 66 BLOCKS IS ANSWERED WITH 12 until it is extended (10).
 *   - `further` has three bits. ldp_ft_receive sets them too: an owner who stores block 65 alone stores too little.
 *   - A Withdraw or a Release of a prefix, with no label, acts on the labels of that prefix (7).
 *   - ldp_ft_prefix_at tells the prefix of a label that is listed.
 *   - LDP_FT_STACK is 4,608, it was 4,096.
 * WHAT CHANGED IN 4.0.0
 *   - ldp_ft_summary has `marks` at its end: whether Requests are stopped, by the peer or by us. It is returned by
 *     value, so a program that was compiled with another major number of this header must be compiled again.
 *   - ldp_ft_version tells the version of the library that runs.
 * WHAT CHANGED IN 3.0.0
 *   - ALL TIMEOUTS ARE MILLISECONDS. `elapsed` of ldp_ft_time_passed has the type that it had: a caller that still
 *     gives seconds COMPILES, and keeps the state a thousand times too long. So are the value of INIT_WAIT and
 *     `timeout` of ldp_ft_summary. KeepAlive times stay seconds.
 *   - ldp_ft_open has one parameter more, `published`, and a `proposal` of 32 bits: our Init in the form of RFC 3479
 *     with a proposal in milliseconds, or in the draft's with one in seconds. It needs LDP_FT_INIT_ROOM 50 bytes of
 *     room, not 42.
 *   - ldp_ft_message has `published` at its end: it says in which unit its `timeout` is.
 *   - The image has version 2, with 119 label words. A STORED IMAGE OF 2.x IS ANSWERED WITH 11 IN BLOCK 0 until it is
 *     converted (10).
 *
 *   1 The library and its owner        5 What to do after an answer          9 Messages that are left out
 *   2 What the owner keeps             6 A plain peer, and other messages   10 An image of an earlier release
 *   3 What to store, and when          7 Labels                             11 The two forms of FT Session
 *   4 A connection, from begin to end  8 Asking for labels
 *
 * 1 THE LIBRARY AND ITS OWNER
 * The library allocates nothing, keeps nothing between calls, calls nobody back, and touches no byte outside the slices
 * that it is lent. A slice is a pointer and then its length; a null pointer with length 0 is an empty slice. The bytes
 * of a slice are there for the whole call, nobody else writes them meanwhile, and a slice that is written (image, out,
 * words) overlaps no other slice of the call. Beyond that every function takes every input: there is nothing that the
 * caller has to look at first.
 *
 * The owner does the rest: Hello and TCP, the PDU's header, timers, the store, which labels exist and what they lead
 * to, and every message that the library does not write (6).
 *
 * The archive and the shared object are for x86-64 with the System V calling convention; other processors have no build
 * yet. Of the C library they need memset, and memcpy where the compiler likes it, and nothing else. No call uses more
 * than LDP_FT_STACK bytes of stack, these two not counted. Every call on an image sums the blocks that it relies on:
 * block 0, blocks 65 to 67 and each slot that holds a message, at most 34 KB; docs/BENCHMARKS.md has the times.
 *
 * 2 WHAT THE OWNER KEEPS
 *   image    LDP_FT_IMAGE_SIZE bytes: the whole state of the session but for the phase. Its blocks 0 to 67 have 512
 *            bytes each; block b lies at image + 512 * b. Kept in memory, and stored on the cabinet's medium as each
 *            call says.
 *   session  the phase with its value and its flags: what one call hands back is what the next is given. It is not
 *            stored. It is lost with power, and ldp_ft_restore gives the one to begin with.
 *   ids      message IDs: of the two messages that the library writes of its own (Init, KeepAlive), and of all that the
 *            owner submits; a Label Request is known by its ID as long as it is open. And our LDP parameters.
 *
 * Which IDs may be used again, after a power cut too: of messages that are no Requests any, at once; the library
 * compares none of them, and what is held goes out with the ID that it was submitted with. As long as a state is kept
 *   - a Request does not get the ID of one that is open (6); after power-up ldp_ft_request_at tells these
 *   - a Request does not get the ID of one that was aborted: the peer's answer to that one may be on its way, and would
 *     end the new one
 *   - a Request does not get 0: a Notification about no message bears 0 in its Status, and would end it
 *   - no other message gets the ID of an open Request: a Notification about that message would end the Request.
 * So count upwards from 1, and store how far, some hundreds ahead so that it is seldom stored; after power-up go on
 * from there. When the state is released or begins anew every ID may be used again.
 *
 * 3 WHAT TO STORE, AND WHEN OUTPUT MAY LEAVE
 * After each call, in this order:
 *   1. If `slot` is not 0, store that block (1 to 64), whole.
 *   2. Then store each block that `further` names, whole: block 65 + b where bit b is set, b from 0 to 2. Of the calls
 *      only ldp_ft_submit and ldp_ft_receive set one of them, and never two; ldp_ft_format sets all three.
 *   3. Then, if `block0` is 1, store block 0, whole. The call has happened once this is stored.
 *   4. Only then may output leave the cabinet: the bytes that this call wrote, and those of every later call.
 * A block must be stored whole or not at all, and none of a later step before all of an earlier one is on the medium.
 * Where power is cut before 3 is done, ldp_ft_restore gives the state before the call, but that labels in use without
 * protection are freed. So an acknowledgement never leaves before what it acknowledges is stored, and a number never
 * leaves before the store knows that it was given.
 * After ldp_ft_format all 68 blocks are stored:
 *   - On a medium that holds no image blocks 1 to 67 in any order, and block 0 last. A cut before that leaves what
 *     ldp_ft_restore refuses: format again.
 *   - Where an image is given up block 0 goes FIRST, by itself, and then blocks 1 to 67. A cut before it leaves the
 *     image that was there, a cut after it one that keeps nothing; or, where the blocks that were there were damaged,
 *     one that ldp_ft_restore refuses: format again. With block 0 last a cut could leave the old labels, with an open
 *     Request under the ID 0.
 *
 * 4 A CONNECTION, FROM BEGIN TO END
 *   ldp_ft_restore              once, after power-up (ldp_ft_format instead, for a medium that holds no image)
 *   ldp_ft_open                 a TCP connection stands: writes our Init
 *   ldp_ft_init_received        the peer's Init has come: the session is up. On both sides ldp_ft_open comes before it
 *   ldp_ft_keepalive            at once, before any other message; then now and then: it carries our acknowledgement
 *   ldp_ft_pdu_open, ldp_ft_pdu_message, ldp_ft_receive      for every PDU that comes, and each message in it
 *   ldp_ft_submit               for every message that is to reach the peer, also with no connection
 *   ldp_ft_send_next            until it answers 8: the messages to send, the oldest first
 *   ldp_ft_connection_failed    the connection is gone; then ldp_ft_time_passed, or ldp_ft_open again
 * Messages go out as the library wrote them; the owner puts the PDU's header of 10 bytes before them: version 1 (2
 * bytes), the number of bytes that follow (2), our LDP identifier (router ID 4, label space 2); the high byte first, as
 * everywhere in LDP.
 *
 * Who sends what first (RFC 3036, 2.5): the side with the greater transport address connects, and sends its Init. The
 * other waits for that Init, calls ldp_ft_open and then ldp_ft_init_received, and sends its own Init and a KeepAlive.
 * Then the first calls ldp_ft_init_received and sends its KeepAlive. A PDU may bear an Init and a KeepAlive: take its
 * messages one by one, an Init where the session is INIT_WAIT. Whatever else comes there is answered with 22.
 *
 * How often to acknowledge: once after each PDU that bore a numbered message, when all its messages are taken and
 * stored. With `ack` of the next ldp_ft_send_next if one goes out at once, else with a KeepAlive; one acknowledgement
 * speaks for all that was taken before. Later is allowed (the draft, 4.2), but until then the peer holds the messages:
 * with 64 of them it can submit no more (7), and a label that it withdraws is not free.
 *
 * WHO MAY COME IN is the owner's to judge: the library is shown messages, not who sent them. Before an Init is given to
 * ldp_ft_init_received he makes sure of
 *   source address    the connection comes from the peer's address: the one that was configured, or with discovery the
 *                     transport address of its Hellos
 *   adjacency         with discovery, Hellos of the peer's have come and still do; else the connection is closed (RFC
 *                     3036, 2.5.3). No Notification is needed: one with its E bit set would cost a peer that is only
 *                     too early all it keeps (5)
 *   identifiers       the PDU's header bears the peer's LDP identifier, and the Init ours as the receiver's
 *   authentication    whoever is on the way can forge all of these, and break into the connection later. TCP MD5
 *                     signatures (RFC 2385; RFC 3036, 2.9) with a key at both ends keep him out; nothing in LDP does
 * An Init of a wrong sender that gets through costs everything: without FT Session, or with R clear, all labels both
 * ways and all messages held are given up with answer 0; so they are with 34 and 35. The true peer then comes back to a
 * state that it does not share: it gives up its own, or is refused (34, 35), or is taken where the numbers happen to
 * fit, with labels that the two ends see differently. 22 and 23 cost the connection.
 * So a new connection does not end the one that is up. Hold it beside that one, one at a time and not for ever, until
 * its Init has come and is found right; whatever else comes first closes it. Then call ldp_ft_connection_failed for the
 * old connection, close that, and go on with ldp_ft_open and ldp_ft_init_received: so a peer comes back that has lost
 * its connection without our seeing it.
 *
 * Of the peer's Init the library judges that it is well formed, that it bears parameters, and FT Session and FT ACK.
 * Left to the owner, who reads it himself and closes the connection (ldp_ft_connection_failed) where it does not suit
 * him:
 *   protocol version      bytes 12 and 13 of an Init whose first TLV are the parameters; 1 is right
 *   KeepAlive time        the session's is the lesser of the peer's and ours, not zero. If nothing arrives for so long
 *                         the connection is gone; send a KeepAlive at least each third of it
 *   maximum PDU length    the session's is the lesser of the peer's and ours, where each number from 0 to 255 means
 *                         4,096. It bounds the PDU length field: a message of n bytes with its PDU's header needs
 *                         n + 6. Neither is a PDU that is sent held against the peer's maximum by the library, nor one
 *                         that comes against ours
 *   mode                  the bits A (labels on demand) and D (loop detection), and the path vector limit
 *   receiver identifier   that it is ours; and that the identifier in every PDU's header is the peer's
 *
 * 5 WHAT TO DO AFTER AN ANSWER
 *   0         store (3), then send `length` bytes of output if there are any
 *   1 to 16   nothing has changed, there is nothing to store, and the connection stays. 10, 11, 12: the image is not to
 *             be used; read the stored one again, and where that is refused too, also by the converter (10),
 *             ldp_ft_format is what is left.
 *             4 of a PDU: the two ends no longer agree on where a message starts. Call ldp_ft_connection_failed (where
 *             our Init is written), store, close, connect again: the peer sends again what we have not acknowledged
 *   20 to 23  the peer broke the protocol; the session is now as after ldp_ft_connection_failed, which is not called
 *             again. Store, close, connect again. Labels and held messages stay. 21 comes again until a label word is
 *             free: release labels, or wait before connecting
 *   30 to 36  the state cannot be kept, and is released: the session is Idle, all labels both ways and all messages
 *             held are given up. Store, close, take the peer's labels out of use, connect again: both ends begin anew,
 *             and all is submitted again
 * LABELS WAIT after a state is given up: what we had given must not be given for something else before the agreed
 * timeout of that state has passed, since the peer may use it so long (the draft, 4.3 and 4.4.1). This is so after 30
 * to 36, and after ldp_ft_init_received where it answers 0 with UP_FT fresh or UP_PLAIN and state was kept before;
 * after ldp_ft_time_passed the time is over. Read the timeout BEFORE the call (ldp_ft_summarize), for the call puts the
 * new state's in its place, or none, and count from the call. With timeout 0 only the owner can say that the peer uses
 * the labels no more.
 * A connection that is to end with all labels kept is just closed. A Notification whose Status has its E bit set makes
 * the peer give up all it keeps (36 at a peer like this): send one only where the state is gone anyway.
 * Wait between attempts to connect, and longer each time: RFC 3036 asks for 15 seconds and more after an Init that was
 * turned down.
 *
 * 6 A PLAIN PEER, AND OTHER MESSAGES
 * A peer whose Init bears no FT Session is served as RFC 3036 says, in UP_PLAIN: nothing is kept. ldp_ft_submit and
 * ldp_ft_send_next answer 1; the owner writes his Mappings, Withdraws, Releases and Addresses himself and sends them,
 * without FT TLVs, and keeps a label list of his own. ldp_ft_keepalive writes its KeepAlives, and each message that
 * comes is given to ldp_ft_receive, which judges it (22, 36, 31) and keeps nothing of it. When the connection is gone
 * all labels are, both ways. In UP_FT too the owner writes and sends himself what ldp_ft_submit does not take: a
 * Notification with another status, such as 'Label Request Aborted', which answers an Abort (5 would be the answer); a
 * Release of a label below 16 or of one in use without protection, code 6 (6). Such a message bears no FT TLV, has no
 * number, is not sent again, and changes nothing in the image.
 *
 * 7 LABELS
 * The image lists up to 119 labels, each with a code; a label may stand once among ours and once among the peer's.
 *
 *   code                      ldp_ft_submit allows         it becomes, by what happens
 *   -  no word                Mapping: 1                   Mapping received: 3 with a number, 6 without
 *   1  given to the peer      Mapping again, Withdraw: 2   Release received: free
 *   2  being withdrawn        -                            the Withdraw acknowledged: 8. Release received: 9
 *   3  the peer's, in use     Release: 5                   Withdraw received: 4. Mapping: stays
 *   4  .. asked back          Release: free                Withdraw, Mapping: stays
 *   5  .. being released      -                            the Release acknowledged: free. Mapping received: 3.
 *                                                          Withdraw: stays
 *   6  .. in use without      -                            Withdraw received, or a break: free. Mapping without a
 *      protection                                          number: stays
 *   7  an open Request        its Abort: free              see section 8. The label part of its word is 0
 *   8  withdrawn and          -                            Release received: free
 *      acknowledged
 *   9  withdrawn and          -                            the Withdraw acknowledged: free. Release received: stays
 *      released
 *
 * A break leaves all codes but 6, a release frees all words. Ours are 1, 2, 8 and 9, the peer's 3 to 6.
 *
 * A label has the PREFIX of the Mapping that set it last (ldp_ft_prefix_at): that of its FEC where this is one IPv4
 * prefix and nothing else, bits past its length passed over; of every other FEC it has none. A Withdraw or a Release
 * that is received with no label acts, of the wildcard FEC on all labels of its side, of one IPv4 prefix on exactly
 * those of that prefix, each as if it were named, and of another FEC on none. Without FT Protection it is 33 where one
 * of them has another code than 6. One that names a label acts on that label, whatever its FEC.
 * A Mapping received of a label that is listed with another prefix, to have none counting as one, moves it to a free
 * word, with the code of the table; there it has the new prefix. Where no word is free it is 21. Free is here, and
 * wherever a Mapping takes a word, one that was free before the call too; but for the word of the Request that the
 * Mapping answers, which it takes first. Submitted, a Mapping of a label that is given (1) with another prefix is 6:
 * withdraw it first.
 *
 * A label that is withdrawn is free at the second of two: the acknowledgement of its Withdraw, and the peer's Release
 * (the draft, 4.1.1.1). Codes 8 and 9 say which one has come. Until both have, ldp_ft_submit answers 6 to a Mapping of
 * it, over breaks and power cuts; at 8 it waits as long as the peer keeps it. Two messages may still cross: a Mapping
 * of a label that is given already (1), and a Release of one that was not asked back (3). Then the peer may use a label
 * that is not listed here. Where both owners keep from the one, or both from the other, a label that is not listed
 * among ours is not in use at the peer once all messages have arrived. Labels 0 to 15 have their own meaning (3 is
 * implicit null) and are never listed: received, they pass with answer 0 and are the owner's to keep; submitted, they
 * are answered with 6.
 *
 * 8 ASKING FOR LABELS (downstream on demand)
 * A Label Request is submitted as other messages are, in UP_FT. It is then open: its message ID stands beside one of
 * the 119 label words (ldp_ft_request_at), over breaks and power cuts, until exactly one of these
 *   - the Label Abort Request that names its ID is submitted and answered with 0
 *   - a Label Mapping that names its ID (Label Request Message ID TLV) is received; the label takes the
 *     Request's word, unless it stays in the one that it has (7) or is below 16
 *   - a Notification whose Status names its ID, E clear, is received: the peer turns the Request down
 *   - the state is released, or begins anew.
 * Section 2 says which ID the next Request may have. The peer stops Requests with 'No Label Resources' and lets them go
 * on with 'Label Resources Available'; both ends remember over a break which of the two was said last (`marks` of
 * ldp_ft_summarize). Meanwhile ldp_ft_submit answers 14 to a Request; those that are held already still go out. The
 * other way round, the owner submits these two as kinds 9 and 6. A Request of the peer's does not come again once block
 * 0 is stored: an owner who is to answer it after a power cut stores it himself, before block 0.
 * Requests and offers go together: nothing depends on `on_demand`, which only tells the peer what we want.
 *
 * 9 MESSAGES THAT ARE LEFT OUT
 * A connection is resumed where both ends had kept their state, so that both Inits asked to resume, and the peer's was
 * answered with 0: LDP_FT_RESUMED stands in the session's flags as long as it lasts. On it goes out again what was not
 * acknowledged, but not all of it:
 *   ours        ldp_ft_send_next passes over a Request that has a number and was not sent on this connection, if an
 *               Abort that names its message ID is held behind it. The Abort itself goes out. `left_out` tells how many
 *               were passed over; they count as sent with the message that is written. They are never sent again, but
 *               keep their numbers and their slots until the peer acknowledges a later number: they are among the 64
 *               that can be held, and ldp_ft_held shows them. On a connection that is not resumed none is left out, for
 *               what has a number was sent on it.
 *   the peer's  a number may be up to 64 steps ahead of the last one taken, since a peer may leave out messages that a
 *               later one undoes, such as a Mapping and its Withdraw. `left_out` tells how many numbers were left out
 *               before this one, 0 to 63. They do not come any more, and the acknowledgement passes them: so an Abort
 *               may come that names a Request which never came. On a connection that is not resumed only the number
 *               that follows is taken.
 * ldp_ft_next_number is the rule for the peer's numbers by itself.
 *
 * 10 AN IMAGE OF AN EARLIER RELEASE
 * This release stores version 2: the agreed timeout in milliseconds, 119 label words. Releases before 3.0.0 stored
 * version 1: seconds, 120 words. The first of them stored 65 blocks, 33,280 bytes, the others before 5.0.0 66 blocks,
 * 33,792 bytes. After power-up with such an image, in this order:
 *   1. Where 33,280 or 33,792 bytes are stored: read them to the start of a buffer of LDP_FT_IMAGE_SIZE bytes, call
 *      ldp_ft_extend with so many as stored_len, and store the blocks that `further` names. Its labels have no prefix.
 *   2. Only where it is of version 1 (its first four bytes are 0, 0, 0, 1; else go on with 4): ldp_ft_convert_forward,
 *      into a second buffer of LDP_FT_IMAGE_SIZE bytes. With 0 that is the image from now on.
 *   3. Store its block 0, whole. No other block differs, so this is all; storing the whole image does as well, with
 *      block 0 last.
 *   4. ldp_ft_restore, and go on with ldp_ft_open: the session resumes with its peer. No label and no message held is
 *      lost.
 * A cut before 3 is done leaves the image of version 1: begin again with 1. After 3 it is of version 2: begin with 4.
 *
 * A medium that has no length, such as a flash, does not tell how many blocks are stored. At the first start of this
 * release read 68, and begin with 2, or with ldp_ft_restore. Where that is 10 or 11 in block 66 or 67, call
 * ldp_ft_extend with 33,792 and begin again: the labels have no prefix then. Where it is 10 or 11 in block 65, call it
 * with 33,280, begin again, and look at the words that come out (ldp_ft_labels). If none has code 7, no Request was
 * open: go on as from 65 blocks, and store the further blocks before block 0. If one has, 66 blocks or more were stored
 * and block 65 is damaged: the image is not to be used. What an older image left in block 65 does no harm: an ID there
 * counts under code 7 alone, and the first release has no such word.
 *
 * Where ldp_ft_convert_forward answers 16 the last of the 120 label words is in use, and version 2 has no place for it.
 * The image stays as it is. Put the earlier release back in, and let that word become free: have its label released, or
 * withdrawn; of an open Request, abort it (a Mapping that answers it takes the word). It is not taken again while
 * another word is free, for the first free one is taken. Then upgrade. Or give the state up: ldp_ft_format, and both
 * ends begin anew.
 *
 * The way back, for a cabinet that gets an earlier release again: for one before 3.0.0 ldp_ft_convert_back, and store
 * block 0. It answers 16 where the agreed timeout is not whole seconds up to 65,535: propose whole seconds, and the
 * next Init that is taken stores the lesser of both. An image that went back and forth, or forth and back, has the
 * bytes that it had. Releases before 5.0.0 read the first 66 blocks alone, the first one 65: shorten what is stored to
 * so many. ON A MEDIUM THAT HAS NO LENGTH fill blocks 66 and 67 with zeros, which are refused (10) and made anew at the
 * next upgrade: what stood there would be taken for the prefixes of labels that the earlier release has listed
 * meanwhile.
 *
 * 11 THE TWO FORMS OF FT SESSION
 * The draft's FT Session has 4 bytes and a timeout in seconds, that of RFC 3479 has 12 bytes and a reconnect timeout in
 * milliseconds. The library reads both, known by their length; of the published one the R bit and the reconnect timeout
 * alone. 0 is for ever in both. It writes the one that ldp_ft_open is told to, at each open anew; the published one
 * with S alone of its new flags and with recovery time 0. The two ends may write different ones, and another on the
 * next connection: a second counts 1,000 milliseconds, and both agree on the same time. A peer that knows one form
 * alone is to be sent that one. Nothing else of RFC 3479 is done: no check-pointing, no recovery time, no cork.
 */
#ifndef LDP_FT_H
#define LDP_FT_H

#include <stdbool.h>
#include <stddef.h>
#include <stdint.h>

#ifdef __cplusplus
extern "C" {
#endif

/* ---- names for numbers ---- */

/* The version of this header and of the library that it belongs to. A shared object of another major number is not
   compatible. */
#define LDP_FT_VERSION_MAJOR 5
#define LDP_FT_VERSION_MINOR 0
#define LDP_FT_VERSION_PATCH 0

/*
 * The version of the library that runs: major * 65,536 + minor * 256 + patch. The line for a program's start, before
 * any other call; with another major number the structs below have other sizes than the library writes:
 *     if (ldp_ft_version() / 65536 != LDP_FT_VERSION_MAJOR) return 1;
 */
uint32_t ldp_ft_version(void);

/* The image. */
#define LDP_FT_BLOCK_SIZE 512
#define LDP_FT_BLOCKS 68                /* block 0, 64 slots, block 65 with the message IDs of open Requests, and blocks
                                           66 and 67 with the prefixes of labels */
#define LDP_FT_SLOTS 64                 /* so many messages are held at most; slot s is block s + 1 */
#define LDP_FT_REQUEST_BLOCK 65
#define LDP_FT_INDEX_BLOCK 66           /* and the one behind it */
#define LDP_FT_LABEL_WORDS 119
#define LDP_FT_IMAGE_SIZE 34816         /* 68 blocks, in both versions */
#define LDP_FT_EARLIER_IMAGE_SIZE 33280 /* 65 blocks, of version 1 */
#define LDP_FT_UNINDEXED_IMAGE_SIZE 33792 /* 66 blocks, of either version */

/* Bytes of messages. */
#define LDP_FT_MESSAGE_MIN 8       /* a message that is submitted has so many at least */
#define LDP_FT_MESSAGE_MAX 480     /* and so many at most */
#define LDP_FT_SEND_ROOM 496       /* room that is enough for ldp_ft_send_next */
#define LDP_FT_INIT_ROOM 50        /* .. for ldp_ft_open */
#define LDP_FT_KEEPALIVE_ROOM 16   /* .. for ldp_ft_keepalive */
#define LDP_FT_PDU_HEADER 10       /* the header of a PDU: the first message starts behind it */
#define LDP_FT_DEFAULT_MAX_PDU 4096 /* what a maximum PDU length from 0 to 255 means */

/* Labels. */
#define LDP_FT_LABEL_FIRST 16     /* the least label that is listed */
#define LDP_FT_LABEL_LAST 1048575 /* the greatest that there is */
#define LDP_FT_NONE 0xFFFFFFFFu   /* ldp_ft_label, ldp_ft_block_check: there is no such word, there is no check */

/* Bytes of stack that no call exceeds. Most is used by ldp_ft_receive: 4,104, as counted by tests/c/stack.py along the
   calls in the disassembly. */
#define LDP_FT_STACK 4608

/* The phases. */
#define LDP_FT_IDLE 0      /* no connection, no state kept */
#define LDP_FT_INIT_WAIT 1 /* our Init is written, the peer's is awaited */
#define LDP_FT_UP_FT 2     /* up, with fault tolerance: state is kept */
#define LDP_FT_UP_PLAIN 3  /* up, without it: the peer's Init bore no FT Session; nothing is kept */
#define LDP_FT_FAILED 4    /* no connection, state is kept for the agreed timeout */

/* The answers. 1 to 16: nothing has changed; image, output and session are as they were given. */
#define LDP_FT_DONE 0
#define LDP_FT_WRONG_PHASE 1            /* the call may not come in this phase; or no such phase; or the image rules it
                                           out: UpFT or Failed where no state is kept, Idle or UpPlain where it is, UpFT
                                           with more sent than have a number. Also ldp_ft_submit where no state is
                                           kept */
#define LDP_FT_ZERO_DISTANCE 2          /* ldp_ft_distance: a number is zero */
#define LDP_FT_LENGTH_OUT_OF_RANGE 3    /* ldp_ft_submit: the message has fewer than 8 or more than 480 bytes */
#define LDP_FT_MALFORMED 4              /* ldp_ft_submit: the message is malformed; ldp_ft_pdu_open and
                                           ldp_ft_pdu_message: the PDU is */
#define LDP_FT_KIND_NOT_SENT 5          /* ldp_ft_submit: the message is of no kind, or bears an FT TLV, or lacks its
                                           label */
#define LDP_FT_LABEL_NOT_ALLOWED 6      /* ldp_ft_submit: the label's code does not allow the message (7), or the label
                                           is below 16; a Mapping of a label that is given with another prefix; a
                                           Withdraw of a label whose Withdraw is still held, a Release of one whose
                                           Release is (of a Mapping the code and the prefix alone count); a Request with
                                           the message ID of an open one; an Abort that names no open Request */
#define LDP_FT_STORE_FULL 7             /* ldp_ft_submit: 64 messages are held; submit it again when some are
                                           acknowledged */
#define LDP_FT_NOTHING_UNSENT 8         /* ldp_ft_send_next: all that is held has been sent on this connection;
                                           ldp_ft_held: none is held there */
#define LDP_FT_OUTPUT_TOO_SHORT 9       /* the output is too short; exact room is enough */
#define LDP_FT_BAD_BLOCK 10             /* the check of block `block` is wrong: the image is not to be used */
#define LDP_FT_BAD_FIELD 11             /* a field of block `block` is out of its range: the image is not to be used; in
                                           block 0 also one of another version than 2 (10) */
#define LDP_FT_WRONG_SIZE 12            /* the image does not have LDP_FT_IMAGE_SIZE bytes */
#define LDP_FT_NO_LABEL_WORD 13         /* ldp_ft_submit: a Mapping of a new label or a Request, and all 119 label words
                                           are in use */
#define LDP_FT_REQUESTS_STOPPED 14      /* ldp_ft_submit: a Request, and the peer has said 'No Label Resources' (8) */
#define LDP_FT_REQUEST_OUTSIDE_UP_FT 15 /* ldp_ft_submit: a Request, and state is kept but the session is not UP_FT;
                                           submit it when it is. Where no state is kept, as in Idle, a Request is
                                           answered with 1 */
#define LDP_FT_NOT_CONVERTIBLE 16       /* the converter: forward, the last of the 120 label words is in use; back, the
                                           agreed timeout is not whole seconds up to 65,535 (10) */

/* From here on: the session is as after ldp_ft_connection_failed, Failed where state is kept, else Idle. Nothing of the
   message was taken, its acknowledgement neither. */
#define LDP_FT_FAILS_FROM 20
#define LDP_FT_OUT_OF_TURN 20         /* a protected message bears neither the number that follows the last one taken
                                         nor, on a resumed connection, one of the 63 after it (9) */
#define LDP_FT_NO_WORD_FOR_MAPPING 21 /* a Mapping was received of a new label, or of one listed with another prefix,
                                         that answers no open Request, and none of the 119 label words is free that was
                                         free before the call (7) */
#define LDP_FT_MALFORMED_RECEIVED 22  /* a malformed message, or an Init on a session that is up, or no Init where one
                                         is awaited */
#define LDP_FT_BAD_INIT 23            /* an Init without parameters, or one that asks to resume and bears no
                                         acknowledgement */

/* From here on: the state is released. Block 0 says that nothing is kept, and the session is Idle. */
#define LDP_FT_RELEASES_FROM 30
#define LDP_FT_ZERO_NUMBER 30        /* a protected message with number zero */
#define LDP_FT_FT_TLV_IN_PLAIN 31    /* an FT TLV on a session without fault tolerance */
#define LDP_FT_PROTECTION_WRONG 32   /* a message is protected that must not be: it names a label that is in use without
                                        protection */
#define LDP_FT_PROTECTION_MISSING 33 /* a message is not protected that must be: an Address, an Address Withdraw, 'Label
                                        Resources Available', a Mapping or Withdraw of a label with code 3 to 5, a
                                        Release of one with code 1, 2, 8 or 9 */
#define LDP_FT_ACK_SEQUENCE_ERROR 34 /* an acknowledgement that is neither the last one again nor of a number that was
                                        given since */
#define LDP_FT_PARAMETERS_CHANGED 35 /* the peer resumes with another KeepAlive time or maximum PDU length than it
                                        had */
#define LDP_FT_STATUS_FATAL 36       /* a Status with its E bit set: the peer ends the session */

/* The kinds of messages that ldp_ft_submit takes and ldp_ft_message_read tells: the message type, and what else makes
   it one. */
#define LDP_FT_KIND_NONE 0
#define LDP_FT_KIND_MAPPING 1             /* Label Mapping; a Generic Label, as submitted, for this and the next two */
#define LDP_FT_KIND_WITHDRAW 2            /* Label Withdraw */
#define LDP_FT_KIND_RELEASE 3             /* Label Release */
#define LDP_FT_KIND_ADDRESS 4             /* Address */
#define LDP_FT_KIND_ADDRESS_WITHDRAW 5    /* Address Withdraw */
#define LDP_FT_KIND_RESOURCES_AVAILABLE 6 /* Notification, status 'Label Resources Available' (0x0F), E clear */
#define LDP_FT_KIND_REQUEST 7             /* Label Request */
#define LDP_FT_KIND_ABORT 8               /* Label Abort Request, which names a Request by its message ID */
#define LDP_FT_KIND_NO_RESOURCES 9        /* Notification, status 'No Label Resources' (0x0E), E clear */

/* The message types of LDP. */
#define LDP_FT_TYPE_NOTIFICATION 0x0001
#define LDP_FT_TYPE_HELLO 0x0100
#define LDP_FT_TYPE_INITIALIZATION 0x0200
#define LDP_FT_TYPE_KEEPALIVE 0x0201
#define LDP_FT_TYPE_ADDRESS 0x0300
#define LDP_FT_TYPE_ADDRESS_WITHDRAW 0x0301
#define LDP_FT_TYPE_MAPPING 0x0400
#define LDP_FT_TYPE_REQUEST 0x0401
#define LDP_FT_TYPE_WITHDRAW 0x0402
#define LDP_FT_TYPE_RELEASE 0x0403
#define LDP_FT_TYPE_ABORT 0x0404

/* The codes of a label word (7). A word is label + 1,048,576 * code, and 0 where the place is free. */
#define LDP_FT_CODE_FREE 0
#define LDP_FT_CODE_GIVEN 1
#define LDP_FT_CODE_WITHDRAWING 2
#define LDP_FT_CODE_USING 3
#define LDP_FT_CODE_ASKED_BACK 4
#define LDP_FT_CODE_RELEASING 5
#define LDP_FT_CODE_UNPROTECTED 6
#define LDP_FT_CODE_REQUEST 7
#define LDP_FT_CODE_WITHDRAWN_ACKED 8
#define LDP_FT_CODE_WITHDRAWN_RELEASED 9
#define LDP_FT_WORD_LABEL(word) ((word) & 0xFFFFFu)
#define LDP_FT_WORD_CODE(word) ((word) >> 20)

/* The phase.
   Its value: in INIT_WAIT our proposed timeout in MILLISECONDS, any number, 0 for ever; in UP_FT how many of the
   messages held, from the oldest on, were sent on this connection or left out: ldp_ft_send_next raises it by one and
   those that it passes over, an acknowledgement lowers it by what it releases, not below 0. In every other phase it is
   not read, and written as 0.
   Its flags: in UP_FT LDP_FT_RESUMED, or 0. Bits that the phase does not bear are not read, and written as 0.
   A phase above 4 is answered with 1 where 1 is due. */
typedef struct ldp_ft_session {
    uint32_t phase;
    uint32_t value;
    uint32_t flags;
} ldp_ft_session;

#define LDP_FT_RESUMED 1 /* bit 0 of `flags`, in UP_FT: the connection is a resumed one (9) */

typedef struct ldp_ft_outcome {
    uint32_t answer;        /* one of those above; 0 done */
    uint32_t block;         /* the block that answers 10 and 11 name, else 0 */
    ldp_ft_session session; /* the session afterwards; on answers 1 to 16 as given, all three numbers */
    uint32_t length;        /* bytes written to out, from its start, else 0; no byte after them is touched */
    uint32_t slot;          /* block of the slot that the call wrote (1 to 64), also where its bytes were the same:
                               store it first; 0 none */
    uint32_t block0;        /* 1: block 0's bytes changed, store it last, before output leaves; 0: they did not */
    uint32_t further;       /* bit b: the bytes of block 65 + b changed, b from 0 to 2; store it after the slot and
                               before block 0. At most one bit is set, but for ldp_ft_format, which sets all */
    uint32_t left_out;      /* ldp_ft_receive: numbers that the peer left out before this one, 0 to 63;
                               ldp_ft_send_next: messages of ours that were passed over, 0 to 63; else 0 (9) */
} ldp_ft_outcome;

#define LDP_FT_FURTHER_REQUESTS 1 /* bit 0 of `further`: block 65 */
#define LDP_FT_FURTHER_INDEX 6    /* bits 1 and 2: blocks 66 and 67 */

/* ---- how a session begins ---- */

/*
 * Makes a new image from any bytes: nothing kept. Answers 0 or 12. With 0 the session is Idle, slot is 0, block0 is 1
 * and further is 7, and ALL 68 blocks are to be stored, in the order of section 3. Not for a medium that holds an
 * image: all it holds is given up.
 */
ldp_ft_outcome ldp_ft_format(uint8_t *image, size_t image_len);

/*
 * Begins from a stored image of version 2, after power-up: checks its size (12), block 0 (10, 11), every slot in use
 * (10, 11, with the block) and blocks 65 to 67 (10, 11, whether or not state is kept), and frees the labels that were
 * in use without protection, as after a break. With 0 the session is Failed where state is kept, else Idle; store block
 * 0 if block0 is 1. Where refused the session is Idle, no byte has changed, and the image is not to be used.
 * Every other call on an image makes the same checks, and answers 12, 10 or 11 before anything else.
 */
ldp_ft_outcome ldp_ft_restore(uint8_t *image, size_t image_len);

/*
 * Writes our Init for a new connection, into `out`. In Idle and Failed. Answers 0, 12, 10, 11, 1, 9.
 *   message_id                      of our Init
 *   keepalive_time, max_pdu_length  our parameters; the same at every open: a peer like this gives up its state where
 *                                   they change (35)
 *   receiver_lsr, receiver_space    the peer's LDP identifier: router ID and label space. A number, not bytes: 10.0.0.1
 *                                   is 0x0A000001 on every machine (ntohl of what the peer's PDU header bears)
 *   proposal_given, proposal        for how long we propose that state is kept over a break, 0 for ever: MILLISECONDS
 *                                   where `published` is set, else SECONDS, and more than 65,535 of these are taken as
 *                                   65,535. Not given: 30 seconds in either form
 *   on_demand                       bit A of our Init: labels are asked for before they are offered. Kept nowhere: say
 *                                   it at every open
 *   published                       FT Session of our Init in the form of RFC 3479, else in the draft's (11). Kept
 *                                   nowhere: say it at every open
 * In the draft's form 42 bytes where state is kept (the Init asks to resume and bears our acknowledgement), else 34; in
 * the published one 50, else 42. Then the session is INIT_WAIT, and its value our proposal in milliseconds. No byte of
 * the image changes.
 */
ldp_ft_outcome ldp_ft_open(const uint8_t *image, size_t image_len, ldp_ft_session s, uint32_t message_id,
                           uint16_t keepalive_time, uint16_t max_pdu_length, uint32_t receiver_lsr,
                           uint16_t receiver_space, bool proposal_given, uint32_t proposal, bool on_demand,
                           bool published, uint8_t *out, size_t out_len);

/*
 * Takes the peer's Init. In INIT_WAIT. Answers 0, 12, 10, 11, 1, 22, 23, 35, 34. With 0 the session is up:
 *   UP_FT, resumed     both sides kept their state: what the peer has acknowledged is let go, and what else is held
 *                      goes out again from the oldest, each with the number that it had (ldp_ft_send_next; 9). `flags`
 *                      is LDP_FT_RESUMED
 *   UP_FT, fresh       one side kept none: our state is given up and begins anew. Labels and messages held are gone.
 *                      `flags` is 0
 *   UP_PLAIN           the peer's Init bears no FT Session: our state is given up, and nothing is kept
 * Resumed where both Inits have `reconnect` 1 (ldp_ft_message_read); ours has it where the session was Failed when it
 * was written. The agreed timeout is the lesser of both proposals in milliseconds, 0 being for ever, whatever forms
 * they came in (ldp_ft_summarize tells it). The peer's KeepAlive time and maximum PDU length are stored with a state
 * that begins, and compared where one is resumed (35).
 */
ldp_ft_outcome ldp_ft_init_received(uint8_t *image, size_t image_len, ldp_ft_session s,
                                    const uint8_t *msg, size_t msg_len);

/* ---- the two events ---- */

/*
 * The connection is gone. In INIT_WAIT, UP_FT, UP_PLAIN. Answers 0, 12, 10, 11, 1. Labels in use without protection are
 * freed; the session is Failed where state is kept, else Idle. Messages held and all other labels stay.
 */
ldp_ft_outcome ldp_ft_connection_failed(uint8_t *image, size_t image_len, ldp_ft_session s);

/*
 * `elapsed` MILLISECONDS have passed since the connection failed; before 3.0.0 it was seconds. In Failed. Answers 0,
 * 12, 10, 11, 1. Where the agreed timeout is not zero and elapsed is at least it, the state is released and the session
 * is Idle; else nothing changes and it stays Failed. Call it from time to time, or once when the timeout
 * (ldp_ft_summarize) is over; and after power-up with the time since the failure if that is known. 32 bits of
 * milliseconds are 49 days: give 0xFFFFFFFF for more, which is at least every timeout that there is.
 */
ldp_ft_outcome ldp_ft_time_passed(uint8_t *image, size_t image_len, ldp_ft_session s, uint32_t elapsed);

/* ---- messages to the peer ---- */

/*
 * Queues a message of one of the kinds, without FT TLVs, 8 to 480 bytes, whose length field is that of its bytes. In
 * every phase where state is kept, so with no connection too, but for Requests. Answers 0, 12, 10, 11, 1, 3, 4, 5, 6,
 * 14, 15, 13, 7. With 0 the message is held: store the block `slot`, then the block that `further` names, then
 * block 0. From then on it reaches the peer once, in order, whatever breaks, as long as the state is kept; but for a
 * Request that its Abort undoes on the way (9). It gets its number when it is first sent.
 * What it does to its label (7): a Mapping lists it as given, with its prefix; a Withdraw marks it as being withdrawn,
 * and it is free when the peer has both acknowledged the Withdraw and released the label; a Release marks a label of
 * the peer's as being released, and it is free when the peer has acknowledged that, at once where the peer had asked
 * for it back. A Request takes a free label word until it ends, an Abort frees its Request's word at once: whether the
 * peer has given the label meanwhile is the peer's to say.
 */
ldp_ft_outcome ldp_ft_submit(uint8_t *image, size_t image_len, ldp_ft_session s, const uint8_t *msg, size_t msg_len);

/*
 * Writes the oldest message held that was not sent on this connection, and is not left out (9), into `out`, with its FT
 * number at its end, and with our acknowledgement behind that if `ack` is set. In UP_FT. Answers 0, 12, 10, 11, 1, 8,
 * 9. 8 bytes more than were submitted, 16 with the acknowledgement.
 * With 0 the session's count sent is 1 + left_out more. A message that is sent for the first time gets its number:
 * block0 is 1, and block 0 is stored before the message leaves. It stays held until the peer acknowledges it. 9 passes
 * over nothing. 8: behind one that is left out stands its Abort, so nothing is hidden.
 */
ldp_ft_outcome ldp_ft_send_next(uint8_t *image, size_t image_len, ldp_ft_session s, bool ack,
                                uint8_t *out, size_t out_len);

/*
 * Writes a KeepAlive into `out`: 16 bytes in UP_FT, with our acknowledgement of all that was taken, and 8 in UP_PLAIN.
 * Answers 0, 12, 10, 11, 1, 9. No byte of the image changes; but what earlier calls left to store is stored before this
 * leaves, since the acknowledgement speaks of it.
 */
ldp_ft_outcome ldp_ft_keepalive(const uint8_t *image, size_t image_len, ldp_ft_session s, uint32_t message_id,
                                uint8_t *out, size_t out_len);

/* ---- messages from the peer ---- */

/*
 * Takes one message of the peer's, as ldp_ft_pdu_message shows it. In UP_FT and UP_PLAIN. Answers 0, 12, 10, 11, 1, 22,
 * 36, 31, 30, 34, 33, 32, 20, 21, the first of these that holds.
 * With 0: messages of ours that it acknowledges are let go, the labels change as its type says, an open Request that a
 * Mapping or a Notification names has ended, whether Requests are stopped is as a Notification says, and its number is
 * the last one taken; left_out tells how many numbers the peer left out before it. The message is the owner's to act on
 * (ldp_ft_message_read) once block 0 is stored; it does not come again then. In UP_PLAIN nothing is kept of it.
 */
ldp_ft_outcome ldp_ft_receive(uint8_t *image, size_t image_len, ldp_ft_session s, const uint8_t *msg, size_t msg_len);

/* ---- reading PDUs and messages; they need no image ---- */

typedef struct ldp_ft_pdu {
    uint32_t answer; /* 0 or 4 */
    uint32_t count;  /* the number of messages, 0 with 4 */
} ldp_ft_pdu;

/*
 * Judges one whole PDU: version 1, a PDU length that is that of its bytes, and messages whose lengths add up to it
 * exactly. pdu_len is 4 more than the PDU length field says: read 4 bytes from the connection, then as many as the
 * field says.
 */
ldp_ft_pdu ldp_ft_pdu_open(const uint8_t *pdu, size_t pdu_len);

typedef struct ldp_ft_part {
    uint32_t answer; /* 0; 4 of a PDU; 12, 10, 11 or 8 of an image */
    uint32_t start;  /* the message is the bytes from start up to, not including, end, of the PDU or of the image; 0 and
                        0 where answer is not 0 */
    uint32_t end;
} ldp_ft_part;

/*
 * The message that starts at `at` and lies whole within pdu; 4, 0, 0 where none does. It looks at that message alone:
 * ldp_ft_pdu_open has judged the PDU. The first message starts at 10, each later one at the last end; there are as many
 * as ldp_ft_pdu_open counted. A place that 32 bits do not name is 4 too; no PDU reaches it.
 */
ldp_ft_part ldp_ft_pdu_message(const uint8_t *pdu, size_t pdu_len, size_t at);

/* The bits of `has`. */
#define LDP_FT_HAS_FEC 1
#define LDP_FT_HAS_LABEL 2
#define LDP_FT_HAS_STATUS 4
#define LDP_FT_HAS_PARAMETERS 8
#define LDP_FT_HAS_FT_SESSION 16
#define LDP_FT_HAS_FT_PROTECTION 32
#define LDP_FT_HAS_FT_ACK 64
#define LDP_FT_HAS_REQUEST_ID 128

typedef struct ldp_ft_message {
    uint32_t answer;              /* 0, or 22 where malformed; then all else is 0 */
    uint32_t type;                /* the message type, U masked off */
    uint32_t message_id;
    uint32_t kind;                /* 1 to 9, 0 where it is none of them. A Withdraw or Release without a label has its
                                     kind too */
    uint32_t has;                 /* the TLVs that it bears, by the bits above */
    uint32_t fec_start, fec_end;  /* the FEC TLV's value: msg[fec_start] up to, not including, msg[fec_end] */
    uint32_t label, status, number, ack; /* Generic Label; Status code with its E and F bits; FT Protection; FT ACK. 0
                                            where not borne */
    uint32_t reconnect, timeout;  /* FT Session: its R bit (0 or 1), and its timeout, 0 for ever, in the unit that
                                     `published` tells */
    uint32_t keepalive_time, max_pdu_length; /* Common Session Parameters */
    uint32_t request_id;          /* Label Request Message ID: the Request that a Mapping answers or an Abort ends. 0
                                     where not borne */
    uint32_t status_id;           /* the message ID in Status: the message that a Notification is about. 0 where there
                                     is no Status */
    uint32_t published;           /* 1: FT Session has RFC 3479's 12 bytes, and `timeout` is milliseconds; 0: it has the
                                     draft's 4, and `timeout` is seconds, or there is none (11) */
} ldp_ft_message;

/*
 * Reads one message. Malformed: a length that is not that of its bytes, TLVs that do not fill it exactly, a wrong
 * length of a TLV named above (FT Session has two right ones, 4 and 12), such a TLV twice, a label above 1,048,575, a
 * Mapping without FEC or label, a Withdraw, Release, Request or Abort without FEC, an Abort without the Request's ID.
 * Other TLVs are passed over.
 */
ldp_ft_message ldp_ft_message_read(const uint8_t *msg, size_t msg_len);

/* ---- what an image holds ---- */

typedef struct ldp_ft_summary {
    uint32_t answer, block; /* ldp_ft_restore's checks: 0, or 12, 10, 11 with the block; all else is 0 where refused */
    uint32_t kept;          /* 1 where state is kept, else 0 and all that follows is 0 */
    uint32_t released;      /* the last number of ours that the peer acknowledged; 0 none yet */
    uint32_t issued;        /* the last number that we gave */
    uint32_t secured;       /* the last number of the peer's that was taken: what we acknowledge */
    uint32_t held;          /* messages held, 0 to 64 */
    uint32_t pended;        /* those of them that have no number yet: they were never sent */
    uint32_t labels;        /* label words in use, open Requests among them */
    uint32_t timeout;       /* the agreed timeout in MILLISECONDS, 0 for ever; before 3.0.0 seconds */
    uint32_t keepalive_time, max_pdu_length; /* the peer's, as its Init said */
    uint32_t marks;         /* whether Requests are stopped (8), by the bits below; 0 where nothing is kept */
} ldp_ft_summary;

/* The bits of `marks`. */
#define LDP_FT_MARK_STOPPED 2  /* the peer has said 'No Label Resources': ldp_ft_submit answers 14 to a Request */
#define LDP_FT_MARK_STOPPING 4 /* we have said it: from when ldp_ft_submit takes kind 9 until it takes kind 6 */

/* What an image holds, in numbers. Answers 0, 12, 10, 11. */
ldp_ft_summary ldp_ft_summarize(const uint8_t *image, size_t image_len);

typedef struct ldp_ft_words {
    uint32_t answer, block; /* 0, or 12, 10, 11 with the block, then 9 */
    uint32_t count;         /* the words that are not 0; 0 where refused */
} ldp_ft_words;

/*
 * Writes all label words to the start of `words`, and no word after them. words_len is a count of words. Answers 0, 12,
 * 10, 11, then 9 where words_len is less than LDP_FT_LABEL_WORDS; only 0 writes.
 */
ldp_ft_words ldp_ft_labels(const uint8_t *image, size_t image_len, uint32_t *words, size_t words_len);

/*
 * The message held at that place, 0 the oldest, as it was submitted: a part of the image. Answers 0, 12, 10, 11; 8
 * where none is held there. Its FT number is not in it: at place 0 it is the one that follows `released` of
 * ldp_ft_summarize (ldp_ft_successor), at each place one step more; the last `pended` have none yet.
 * With these three an owner can say what is given up before a state is released, or from its store before block 0 is
 * overwritten.
 */
ldp_ft_part ldp_ft_held(const uint8_t *image, size_t image_len, uint32_t place);

/*
 * The label word at place 0 to 118 of an image that passes ldp_ft_restore's checks; LDP_FT_NONE where it does not, or
 * there is no such place.
 */
uint32_t ldp_ft_label(const uint8_t *image, size_t image_len, uint32_t place);

typedef struct ldp_ft_request {
    uint32_t open; /* 1 where the word at the place is an open Request's; else 0 */
    uint32_t id;   /* its message ID, which may be 0 too; 0 where open is 0 */
} ldp_ft_request;

/*
 * The open Request at place 0 to 118 of an image that passes ldp_ft_restore's checks. 0, 0 where the word is another,
 * where there is no such place, and where the image is refused. No two open Requests have one ID.
 */
ldp_ft_request ldp_ft_request_at(const uint8_t *image, size_t image_len, uint32_t place);

typedef struct ldp_ft_prefix {
    uint32_t indexed; /* 1 where the word at the place lists a label that has a prefix; else 0 */
    uint32_t length;  /* of the prefix in bits, 0 to 32; 0 where indexed is 0 */
    uint32_t prefix;  /* its first byte the highest, 0 past its length; 0 where indexed is 0 */
} ldp_ft_prefix;

/*
 * The prefix (7) of the label at place 0 to 118 of an image that passes ldp_ft_restore's checks. 0, 0, 0 where the word
 * lists no label or one without a prefix, where there is no such place, and where the image is refused.
 */
ldp_ft_prefix ldp_ft_prefix_at(const uint8_t *image, size_t image_len, uint32_t place);

/* The check over the first 508 bytes of a block, A * 65536 + B, as its last 4 bytes spell it; LDP_FT_NONE where there
   are fewer than 508. */
uint32_t ldp_ft_block_check(const uint8_t *block, size_t block_len);

/* ---- numbers ---- */

typedef struct ldp_ft_distance_result {
    uint32_t answer; /* 0 or 2 */
    int32_t steps;   /* the shorter way round, -2,147,483,647 to 2,147,483,647; 0 with 2 */
} ldp_ft_distance_result;

/* The signed distance of two FT numbers on their circle, 1 to 0xFFFFFFFF and then 1 again; 2 where one is zero. */
ldp_ft_distance_result ldp_ft_distance(uint32_t from, uint32_t to);

/* The FT number that follows: 1 after 0 (none) and after 0xFFFFFFFF. */
uint32_t ldp_ft_successor(uint32_t number);

typedef struct ldp_ft_next {
    uint32_t answer;   /* 0, 20 or 30 */
    uint32_t left_out; /* how many numbers were left out before it, 0 to 63; 0 where answer is not 0 */
} ldp_ft_next;

/*
 * Whether a number may come after the last one taken (0: none yet), by the rule that ldp_ft_receive goes by: on a
 * resumed connection one that is 1 to 64 steps ahead, else the one that follows, 1 step ahead; 20 for any other, 30 for
 * the number zero.
 */
ldp_ft_next ldp_ft_next_number(uint32_t secured, uint32_t number, bool resumed);

/* The lesser of two timeouts of one unit, zero counting as for ever. */
uint32_t ldp_ft_lesser_timeout(uint32_t a, uint32_t b);

/* ---- an image of an earlier release ---- */

typedef struct ldp_ft_extended {
    uint32_t answer;  /* 0 or 12 */
    uint32_t further; /* the blocks that were made, by the bits of ldp_ft_outcome; 0 with 12 */
} ldp_ft_extended;

/*
 * Makes the blocks that a stored image of an earlier release lacks. Its stored_len bytes lie at the start of `image`, a
 * buffer of LDP_FT_IMAGE_SIZE bytes; what the buffer holds behind them does not matter. stored_len is
 * LDP_FT_EARLIER_IMAGE_SIZE (65 blocks: no Requests, no prefixes) or LDP_FT_UNINDEXED_IMAGE_SIZE (66 blocks: no
 * prefixes). With 0, store the blocks that `further` names, before any other call's; then call ldp_ft_convert_forward,
 * or ldp_ft_restore: nothing has been looked at yet. 12: image_len is not
 * LDP_FT_IMAGE_SIZE, or stored_len is no earlier size; no byte has changed.
 */
ldp_ft_extended ldp_ft_extend(uint8_t *image, size_t image_len, size_t stored_len);

typedef struct ldp_ft_converted {
    uint32_t answer; /* 0, 12, 10, 11, 16, 9, the first of these that holds */
    uint32_t block;  /* the block that answers 10 and 11 name, else 0 */
    uint32_t length; /* bytes written to out, LDP_FT_IMAGE_SIZE with 0; else 0, and no byte is written */
} ldp_ft_converted;

/*
 * Writes an image of version 1 as one of version 2 (forward), or one of version 2 as one of version 1 (back), into
 * `out`. `image` stays as it is. All of ldp_ft_restore's checks are made, by the version that is read: 12, 10, 11; an
 * image of the other version is 11 in block 0. Then 16 where the version that is written has no place for what the
 * image holds, then 9 where `out` has fewer than LDP_FT_IMAGE_SIZE bytes. With 0 the two images differ in block 0
 * alone, so an owner may store that block alone. Labels in use without protection are not freed: ldp_ft_restore does
 * that. Section 10 has the order of an upgrade, and what to do after 16.
 */
ldp_ft_converted ldp_ft_convert_forward(const uint8_t *image, size_t image_len, uint8_t *out, size_t out_len);
ldp_ft_converted ldp_ft_convert_back(const uint8_t *image, size_t image_len, uint8_t *out, size_t out_len);

#ifdef __cplusplus
}
#endif

#endif
