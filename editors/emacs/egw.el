;;; egw.el --- Several people edit one text, each in a copy of their own  -*- lexical-binding: t; -*-

;; Package-Requires: ((emacs "28.1"))

;;; Commentary:

;; A buffer that visits NAME.egw shows the text of that event file.  What is typed becomes events, what peers send changes the
;; buffer, and README.md beside this file tells what is kept when.  `egw-listen', `egw-join', `egw-join-command' and
;; `egw-join-host' find peers.

;;; Code:

(require 'cl-lib)
(require 'subr-x)
(require 'egw-module)

(defgroup egw nil "Several people edit one text, each in a copy of their own." :group 'editing)

(defcustom egw-program
  (let ((beside (expand-file-name "../../egw" (file-name-directory (or load-file-name buffer-file-name default-directory)))))
    (or (getenv "EGW") (if (file-executable-p beside) beside "egw")))
  "The program egw, which stores files."
  :type 'string)

(defcustom egw-agent nil
  "The name of this copy, 1 to 32 of a-z A-Z 0-9 _ -; nil makes one of the user, the machine and the file.
No two copies of a text may be edited under one name."
  :type '(choice (const nil) string))

(define-error 'egw-refused "egw")

(cl-defstruct (egw--book (:copier nil))
  "What belongs to a buffer: how many events it SHOWS, its OWN events counted, and what can be UNDONE and REDONE."
  document file agent buffer kept unkept old peers links server timer stopped is-open own (shown 0) undone redone seen)

(defvar-local egw--book nil)
(put 'egw--book 'permanent-local t)

(defvar egw--applying nil "Whether the buffer is being changed as the document was.")

(defun egw--this-book ()
  (or egw--book (user-error "This buffer shows no event file")))

;;; Files

(defun egw--bytes-of (file)
  (with-temp-buffer
    (set-buffer-multibyte nil)
    (insert-file-contents-literally file)
    (buffer-string)))

(defun egw--run (input &rest words)
  "Give INPUT to the program with WORDS, and answer what it prints, as bytes."
  (let ((errors (make-temp-file "egw")) (coding-system-for-read 'no-conversion) (coding-system-for-write 'no-conversion))
    (unwind-protect
        (with-temp-buffer
          (set-buffer-multibyte nil)
          (insert input)
          (if (eq 0 (apply #'call-process-region nil nil egw-program t (list t errors) nil words))
              (buffer-string)
            (error "%s" (string-trim (egw--bytes-of errors)))))
      (delete-file errors))))

(defun egw--take-file (book file)
  "Take in what FILE has and BOOK's document lacks."
  (let ((other (egw--open (egw--bytes-of file))))
    (egw--hear book nil (car (egw--receive other (egw--ask (egw--book-document book)))))))

(defun egw--seen (file)
  (when-let ((told (file-attributes file)))
    (list (file-attribute-inode-number told) (file-attribute-size told) (file-attribute-modification-time told))))

(defun egw--take-stored (book)
  "Take in what somebody else stored in BOOK's file since it was looked at."
  (let* ((file (egw--book-file book)) (seen (egw--seen file)))
    (when (and seen (not (equal seen (egw--book-seen book))))
      (egw--take-file book file)
      (setf (egw--book-seen book) seen))))

(defun egw--store (book)
  "Store BOOK's document: the program merges it into its file.  What else is there then is taken in."
  (let ((copy (make-temp-file "egw")) (file (egw--book-file book)) (coding-system-for-write 'no-conversion))
    (unwind-protect
        (progn
          (write-region (egw--file (egw--book-document book)) nil copy nil 'silent)
          (unless (file-exists-p file) (egw--run "" "new" "--" file))
          (egw--run "" "merge" "--" file copy)
          (egw--take-stored book)
          (setf (egw--book-unkept book) nil)
          (egw--forget (egw--book-kept book)))
      (delete-file copy))))

(defun egw--keep-frames (book frames)
  "Write FRAMES into the file that keeps what isn't stored yet.  Where that fails they are written with the next ones."
  (setf (egw--book-unkept book) (concat (egw--book-unkept book) frames))
  (when (egw--book-kept book)
    (condition-case why
        (progn
          (egw--keep (egw--book-kept book) (egw--book-unkept book))
          (setf (egw--book-unkept book) nil))
      (file-error (message "egw: not kept: %s" (error-message-string why))))))

(defun egw--kept-file (book) (concat (egw--book-file book) ".kept"))

(defun egw--claim (book)
  "Open what is kept beside BOOK's file, which no other Emacs has then, and take in what is there.  Answer whether it can be had."
  (condition-case why
      (setf (egw--book-kept book) (egw--keep-in (egw--kept-file book)))
    (file-error (setf (egw--book-stopped book) (list (error-message-string why)))
                (message "egw: this buffer can't be changed: %s" (error-message-string why))))
  (when-let ((kept (egw--book-kept book)))
    (let ((frames (egw--bytes-of (egw--kept-file book))) (whole 0) end is-taken)
      (unwind-protect
          (progn
            ;; A crash may have cut the last frame short.
            (while (and (setq end (egw--frame-end frames whole)) (> end whole)) (setq whole end))
            (when-let ((why (cdr (egw--receive (egw--book-document book) (substring frames 0 whole)))))
              (signal 'egw-refused (cons (egw--kept-file book) why)))
            (unless (equal frames "") (egw--store book))
            (setq is-taken t))
        (unless is-taken
          (setf (egw--book-kept book) nil)
          (egw--let-go kept))))))

(defun egw--let-it-go (book)
  "Close what is kept beside BOOK's file, and delete it where it is empty."
  (when-let ((kept (egw--book-kept book)))
    (egw--sync kept)
    (when (eq 0 (file-attribute-size (file-attributes (egw--kept-file book)))) (delete-file (egw--kept-file book)))
    (egw--let-go kept)
    (setf (egw--book-kept book) nil)))

;;; The buffer's changes

(defconst egw--unfit (format "[%c-%c%c-%c%c-%c]" #xd800 #xdfff #x110000 #x3fff7f #x3fff80 #x3fffff) "What is no Unicode scalar.")

(defun egw--fit (beg end)
  "Put U+FFFD in the place of what no text can have from BEG to END, and answer the text there."
  (let ((egw--applying t) (case-fold-search nil))
    (save-excursion
      (save-match-data
        (goto-char beg)
        (while (re-search-forward egw--unfit end t) (replace-match "\ufffd" t t)))))
  (message "egw: U+FFFD takes the place of bytes that are no characters")
  (buffer-substring-no-properties beg end))

(defun egw--before (beg end)
  (when (and egw--book (not egw--applying))
    (setf (egw--book-old egw--book) (cons beg (buffer-substring-no-properties beg end)))))

(defun egw--after (beg end length)
  (when (and egw--book (not egw--applying))
    (let* ((old (egw--book-old egw--book))
           (from (and old (- beg (car old))))
           (is-known (and old (<= 0 from (+ from length) (length (cdr old)))))
           (gone (if is-known (substring (cdr old) from (+ from length)) length)))
      (setf (egw--book-old egw--book) nil)
      (unless (egw--book-stopped egw--book)
        (condition-case why
            (egw--replaced egw--book (1- beg) gone (buffer-substring-no-properties beg end))
          (egw-refused (egw--stop egw--book (cdr why))))))))

(defun egw--replaced (book at gone text)
  "Make events of the replacement of GONE, a text or a number of characters, at AT by TEXT, which the buffer has there."
  (let* ((document (egw--book-document book))
         (own (or (egw--book-own book) (setf (egw--book-own book) (egw--own book))))
         (shown (egw--book-shown book))
         (why (condition-case nil
                  (egw--replace document (egw--book-agent book) at gone text)
                (wrong-type-argument '("bad text" 0))))
         (count (- (egw--count document) shown)))
    (when (> count 0)
      (egw--spread book (egw--since book) nil)
      (setf (egw--book-shown book) (+ shown count) (egw--book-own book) (+ own count) (egw--book-redone book) nil)
      (if (egw--book-is-open book)
          (cl-incf (cdar (egw--book-undone book)) count)
        (push (cons own count) (egw--book-undone book)))
      (setf (egw--book-is-open book) t))
    (cond ((not why))
          ((equal (car why) "too many heads")
           (egw--made book (egw--mark document (egw--book-agent book) "joined"))
           (egw--replaced book at gone text))
          ;; What the document never had is gone: nobody told of it.
          ((or (equal (car why) "out of range") (and (stringp gone) (let (case-fold-search) (string-match-p egw--unfit gone))))
           (egw--compare book))
          ((equal (car why) "bad text")
           (egw--replaced book at gone (egw--fit (1+ at) (+ 1 at (length text)))))
          (t (egw--stop book why)))))

(defun egw--since (book)
  "The frames of the events that BOOK's buffer doesn't show yet."
  (egw--events (egw--book-document book) (egw--book-shown book)))

(defun egw--made (book why)
  "Keep, pass on and show the events that a call of the library made, or signal WHY it made none."
  (when why (signal 'egw-refused why))
  (when (< (egw--book-shown book) (egw--count (egw--book-document book)))
    (egw--spread book (egw--since book) nil)
    (egw--catch-up book)
    (egw--flush book)))

(defun egw--stop (book why)
  "Take no more changes of the buffer, since the document refused one, or the buffer one of the document's."
  (setf (egw--book-stopped book) why)
  (with-current-buffer (egw--book-buffer book) (setq buffer-read-only t))
  (message "egw: %s: what is shown isn't what is recorded; M-x revert-buffer shows that" (car why)))

(defun egw--own (book)
  "How many events of its own name BOOK's document has: its question tells."
  (let ((told (egw--ask (egw--book-document book))) (at 9) (count 0))
    (while (< at (length told))
      (let ((end (+ at 1 (aref told at))))
        (when (equal (substring told (1+ at) end) (egw--book-agent book)) (setq count (egw--number told end)))
        (setq at (+ end 4))))
    count))

(defun egw--compare (book)
  "Make events of all that the buffer has otherwise than BOOK's document."
  (with-current-buffer (egw--book-buffer book)
    (save-restriction
      (widen)
      (egw--replaced book 0 (egw--text (egw--book-document book)) (buffer-substring-no-properties (point-min) (point-max))))))

(defun egw--check (book)
  "Take in what was changed in the buffer while nobody told."
  (unless (or (egw--book-stopped book)
              (= (buffer-size (egw--book-buffer book)) (egw--length (egw--book-document book))))
    (egw--compare book)))

(defun egw--after-command ()
  (when egw--book
    (egw--check egw--book)
    (unless (and (eq this-command 'self-insert-command) (< (or (cdar (egw--book-undone egw--book)) 0) 20))
      (setf (egw--book-is-open egw--book) nil))
    (egw--flush egw--book)))

(defun egw--catch-up (book)
  "Change the buffer as the events changed the text that it doesn't show yet."
  (let ((from (egw--book-shown book)) (document (egw--book-document book)))
    (when (and (< from (egw--count document)) (egw--book-buffer book) (not (egw--book-stopped book)))
      (setf (egw--book-shown book) (egw--count document) (egw--book-own book) nil (egw--book-is-open book) nil)
      (with-current-buffer (egw--book-buffer book)
        (condition-case why
            (egw--apply (egw--changes document from))
          ((error quit) (egw--stop book (list (error-message-string why)))))))))

(defun egw--apply (changes)
  "Carry CHANGES out, without moving a point or a mark, and without a prompt."
  (let ((egw--applying t) (inhibit-read-only t) (deactivate-mark nil) (buffer-file-name nil))
    (save-excursion
      (save-restriction
        (widen)
        (let ((buffer-undo-list t))
          (pcase-dolist (`(,at . ,what) changes)
            (goto-char (1+ at))
            (if (stringp what) (insert what) (delete-region (point) (+ (point) what))))))))
  (cond ((eq buffer-undo-list t))
        ((nthcdr 200 changes) (setq buffer-undo-list nil))
        (t (pcase-dolist (`(,at . ,what) changes)
             (egw--rebase buffer-undo-list (1+ at) (if (stringp what) (length what) (- what)))))))

(defun egw--moved (place at size)
  "Where PLACE is after SIZE characters were inserted at AT, or deleted where SIZE is negative."
  (cond ((<= place at) place)
        ((> size 0) (+ place size))
        (t (max at (+ place size)))))

(defun egw--rebase (list at size)
  "Change the undo LIST so that it undoes the same after somebody else inserted, or deleted, SIZE characters at AT."
  (let ((left 1000))
    (while (and list (/= size 0))
      (pcase (car list)
        ((pred null))
        ((and place (pred integerp)) (setcar list (egw--moved place at size)))
        (`(,(and beg (pred integerp)) . ,(and end (pred integerp)))
         (let ((new-beg (egw--moved beg at size)) (new-end (egw--moved end at size)))
           (cond ((and (> size 0) (<= at beg)) (setcar list (cons (+ beg size) (+ end size))))
                 ((and (> size 0) (< at end))
                  (setcar list (cons (+ at size) (+ end size)))
                  (setq list (setcdr list (cons (cons beg at) (cdr list)))))
                 ((< size 0)
                  (setcar list (cons new-beg new-end))
                  (setq size (+ size (- (- end beg) (- new-end new-beg))))))
           (cond ((>= at end) (setq at (- at (- end beg))))
                 ((> at beg) (setq at beg)))))
        (`(,(and text (pred stringp)) . ,(and place (pred integerp)))
         (let ((where (abs place)) (length (length text)))
           (cond ((>= at where) (setq at (+ at length)))
                 ((or (> size 0) (<= (- at size) where))
                  (setcdr (car list) (if (< place 0) (- (+ where size)) (+ where size))))
                 (t (setcdr (car list) (if (< place 0) (- at) at))
                    (egw--rebase (cdr list) at (- at where))
                    (setq size (- (- where at) (- size)) at (+ at length))))))
        (`(t . ,_) (setcar list nil))
        (`(nil ,property ,value ,(and beg (pred integerp)) . ,(and end (pred integerp)))
         (setcar list `(nil ,property ,value ,(egw--moved beg at size) . ,(egw--moved end at size))))
        (`(,(pred markerp) . ,_))
        (_ (setcar list nil) (setcdr list nil)))
      (when (= 0 (cl-decf left)) (setcdr list nil))
      (setq list (cdr list)))))

;;; Peers

(defun egw--number (bytes at)
  (cl-loop for i from 3 downto 0 for number = (aref bytes (+ at i)) then (+ (ash number 8) (aref bytes (+ at i)))
           finally return number))

(defun egw--frame-end (bytes at)
  "Where the frame ends that begins in BYTES at AT; nil where it isn't whole.  What can be no frame goes to the end."
  (let ((left (- (length bytes) at)))
    (when (> left 0)
      (let ((kind (aref bytes at)) (size (if (< left 5) 0 (egw--number bytes (1+ at)))))
        (cond ((or (not (<= 1 kind 6)) (and (> kind 1) (> size 1048576))) (length bytes))
              ((and (<= 5 left) (<= (+ 5 size) left)) (+ at 5 size)))))))

(defun egw--hear (book process bytes)
  "Take the whole frames of BYTES, which PROCESS sent, or nobody.  Answer the bytes behind them."
  (let ((at 0) end)
    (unwind-protect
        (while (and (or (not process) (process-live-p process)) (setq end (egw--frame-end bytes at)))
          (egw--take book process (substring bytes at end))
          (setq at end))
      (egw--catch-up book))
    (substring bytes at)))

(defun egw--take (book process frame)
  "Take a FRAME: send PROCESS the answer, and keep and pass on what is new."
  (pcase-let ((`(,reply . ,why) (egw--receive (egw--book-document book) frame)))
    (when process
      (egw--queue process reply)
      (when (eq (aref frame 0) 1) (process-put process 'egw-is-open t)))
    (when (and (eq (aref frame 0) 2) (or why (string-match-p "[^\0]" (substring reply 5 13))))
      (egw--spread book frame process))
    (when why (egw--end book process why))))

(defun egw--spread (book frames except)
  "Keep FRAMES, and queue them for each peer but EXCEPT that was told all that came before."
  (egw--keep-frames book frames)
  (dolist (process (egw--book-peers book))
    (when (and (process-get process 'egw-is-open) (not (eq process except))) (egw--queue process frames)))
  (unless (egw--book-timer book)
    (setf (egw--book-timer book) (run-with-timer 0.5 nil #'egw--rest book))))

(defun egw--rest (book)
  "Send what is left, and sync what was kept."
  (setf (egw--book-timer book) nil)
  (egw--flush book)
  (when (egw--book-kept book) (egw--sync (egw--book-kept book))))

(defun egw--queue (process bytes)
  (process-put process 'egw-queue (cons bytes (process-get process 'egw-queue))))

(defun egw--flush (book)
  "Send each peer what is queued for it."
  (dolist (process (egw--book-peers book))
    (let ((bytes (apply #'concat (reverse (process-get process 'egw-queue)))))
      (process-put process 'egw-queue nil)
      (unless (equal bytes "")
        (condition-case nil
            (process-send-string process bytes)
          (error (delete-process process)))))))

(defun egw--end (book process why)
  "End the session with PROCESS, since the document said WHY."
  (unless process (signal 'egw-refused why))
  (set-process-filter process #'ignore)
  (egw--flush book)
  (unless (equal (car why) "out of memory")
    (setcdr (process-get process 'egw-link) nil))
  (unless (equal (car why) "bye") (message "egw: the session with %s is over: %s" (process-name process) (car why)))
  (delete-process process))

(defun egw--filter (process bytes)
  "Take BYTES of PROCESS, once they and those before them, its pieces, end a frame."
  (let* ((book (process-get process 'egw-book))
         (link (process-get process 'egw-link))
         (pieces (cons bytes (process-get process 'egw-pieces)))
         (size (+ (length bytes) (process-get process 'egw-size)))
         (wanted (process-get process 'egw-wanted)))
    (when (cdr link) (setcdr link 1))
    (unless (< size wanted)
      (let ((left (condition-case why
                      (progn (egw--check book) (egw--hear book process (apply #'concat (reverse pieces))))
                    ;; How far it was heard isn't known.
                    (egw-refused (egw--end book process (cdr why)))
                    (error (egw--end book process (list (error-message-string why)))))))
        (setq pieces (list left) size (length left) wanted (if (< size 5) 5 (+ 5 (egw--number left 1))))))
    ;; While something is sent, more may come: so what is left over stands there before.
    (process-put process 'egw-pieces pieces)
    (process-put process 'egw-size size)
    (process-put process 'egw-wanted wanted)
    (egw--flush book)))

(defun egw--sentinel (process _event)
  (unless (process-live-p process)
    (when-let ((book (process-get process 'egw-book)) (link (process-get process 'egw-link)))
      (setf (egw--book-peers book) (delq process (egw--book-peers book)))
      (force-mode-line-update t)
      (when (car link) (egw--dial-later book link)))))

(defun egw--meet (book process link)
  "Ask the peer behind PROCESS for what BOOK lacks.  LINK is how it is joined again, as for `egw--dial'; its
function is nil where the peer came by itself."
  (set-process-plist process (list 'egw-book book 'egw-link link 'egw-size 0 'egw-wanted 5))
  (set-process-query-on-exit-flag process nil)
  (push process (egw--book-peers book))
  (egw--queue process (egw--ask (egw--book-document book)))
  (egw--flush book)
  (force-mode-line-update t))

(defun egw--dial (book link)
  "Join a peer by LINK: a function that makes its process, and the seconds to wait where it can't; nil once it was left."
  (when (and (cdr link) (buffer-live-p (egw--book-buffer book)))
    (condition-case nil
        (egw--meet book (funcall (car link)) link)
      (error (egw--dial-later book link)))))

(defun egw--dial-later (book link)
  (when (cdr link)
    (run-with-timer (cdr link) nil #'egw--dial book link)
    (setcdr link (min 30 (* 2 (cdr link))))))

(defun egw--join (make)
  (let* ((book (egw--this-book)) (process (funcall make)) (link (cons make 1)))
    (push link (egw--book-links book))
    (egw--meet book process link)))

(defun egw-listen (socket)
  "Let other Emacs join at the local SOCKET."
  (interactive (list (read-file-name "Listen at: " nil nil nil (file-name-nondirectory (concat buffer-file-name ".socket")))))
  (let ((book (egw--this-book)) (socket (expand-file-name socket)))
    (when (process-live-p (egw--book-server book)) (user-error "This text listens at %s" (process-name (egw--book-server book))))
    (when (file-exists-p socket)
      (when (ignore-errors (delete-process (make-network-process :name "egw" :family 'local :service socket)) t)
        (user-error "Somebody listens at %s" socket))
      (delete-file socket))
    (setf (egw--book-server book)
          (make-network-process :name socket :family 'local :server t :service socket :coding 'binary :noquery t
                                :filter #'egw--filter :sentinel #'egw--sentinel
                                :log (lambda (_server client _message) (egw--meet book client (list nil)))))))

(defun egw-join (socket)
  "Join the Emacs that listens at the local SOCKET, and join it again whenever the connection is cut."
  (interactive "fJoin at: ")
  (let ((socket (expand-file-name socket)))
    (egw--join (lambda () (make-network-process :name socket :family 'local :service socket :coding 'binary :noquery t
                                                :filter #'egw--filter :sentinel #'egw--sentinel)))))

(defun egw-join-command (command)
  "Join the peer whose frames the shell COMMAND prints and reads, and start it again whenever it ends."
  (interactive (list (read-shell-command "Join by: ")))
  (egw--join (lambda ()
               (let ((errors (get-buffer-create " *egw errors*")))
                 (prog1 (make-process :name command :command (list shell-file-name shell-command-switch command) :coding 'binary
                                      :connection-type 'pipe :noquery t :stderr errors
                                      :filter #'egw--filter :sentinel #'egw--sentinel)
                   (set-process-query-on-exit-flag (get-buffer-process errors) nil))))))

(defun egw-join-host (host file)
  "Join FILE on HOST, which ssh reaches and which has the program.  It is stored there once it is left."
  (interactive "sHost: \nsFile there: ")
  (let ((name (shell-quote-argument file)))
    (egw-join-command (format "ssh %s %s" (shell-quote-argument host)
                              (shell-quote-argument (format "egw ask -- %s && exec egw serve -- %s" name name))))))

(defun egw-leave ()
  "Say goodbye to all peers.  A program that serves a file stores it then."
  (interactive)
  (let ((book (egw--this-book)))
    (dolist (link (egw--book-links book)) (setcdr link nil))
    (when (egw--book-server book)
      (delete-process (egw--book-server book))
      (ignore-errors (delete-file (process-name (egw--book-server book)))))
    (dolist (process (egw--book-peers book)) (egw--queue process "\6\0\0\0\0"))
    (egw--flush book)
    (with-timeout (5) (while (egw--book-peers book) (accept-process-output nil 0.05)))
    (mapc #'delete-process (copy-sequence (egw--book-peers book)))
    (setf (egw--book-links book) nil (egw--book-server book) nil (egw--book-peers book) nil)))

;;; Commands

(defun egw--take-back (book list)
  "Undo the newest events of LIST by new ones, and answer these."
  (pcase-let ((`(,first . ,count) (or (car list) (user-error "Nothing of yours is left to undo"))) (own (egw--own book)))
    (setf (egw--book-is-open book) nil)
    (egw--made book (egw--undo (egw--book-document book) (egw--book-agent book) (format "%s:%d" (egw--book-agent book) first) count))
    (cons own (- (egw--own book) own))))

(defun egw-undo ()
  "Undo what you typed last, whatever others typed since.  Once more undoes what you typed before that."
  (interactive)
  (let* ((book (egw--this-book)) (made (egw--take-back book (egw--book-undone book))))
    (pop (egw--book-undone book))
    (when (> (cdr made) 0) (push made (egw--book-redone book)))))

(defun egw-redo ()
  "Undo the last `egw-undo'."
  (interactive)
  (let* ((book (egw--this-book)) (made (egw--take-back book (egw--book-redone book))))
    (pop (egw--book-redone book))
    (when (> (cdr made) 0) (push made (egw--book-undone book)))))

(defun egw-save-mark (label)
  "Save the text under a name, LABEL, of a-z A-Z 0-9 _ -, and store the file."
  (interactive "sName of this save: ")
  (let ((book (egw--this-book)))
    (egw--made book (egw--mark (egw--book-document book) (egw--book-agent book) label))
    (set-buffer-modified-p t)
    (save-buffer)))

(defun egw--saves (book)
  "The names of BOOK's saves, the newest first, each with its id."
  (nreverse (mapcar (lambda (line) (let ((words (split-string line " "))) (cons (cadr words) (car words))))
                    (split-string (egw--marks (egw--book-document book)) "\n" t))))

(defun egw--show (name text mode)
  "Show TEXT in a buffer NAME that can't be written, in MODE."
  (pop-to-buffer (get-buffer-create name))
  (let ((inhibit-read-only t))
    (erase-buffer)
    (insert text))
  (funcall mode)
  (setq buffer-read-only t)
  (goto-char (point-min)))

(defun egw-visit-version (version)
  "Show the text of VERSION, a save by its name or ids as AGENT:NUMBER with a comma between two, in a buffer that can't be written."
  (interactive
   (list (completing-read "Save or version: " (mapcar #'car (egw--saves (egw--this-book))))))
  (let* ((book (egw--this-book)) (id (or (cdr (assoc version (egw--saves book))) version)))
    (egw--show (format "*%s at %s*" (buffer-name) version) (egw--text (egw--book-document book) id) major-mode)))

(defconst egw--colours ["#ffd8d8" "#d8ffd8" "#d8d8ff" "#ffffc8" "#ffd8ff" "#c8ffff" "#ffe4c4" "#e0e0e0"])

(defun egw--colour (names name)
  (list :background (aref egw--colours (mod (cl-position name names :test #'equal) (length egw--colours))) :foreground "black"))

(defun egw-blame ()
  "Show who wrote what: the text in a buffer that can't be written, with a colour for each name."
  (interactive)
  (let* ((document (egw--book-document (egw--this-book))) (text (egw--text document)) (at 0) names)
    (dolist (line (split-string (egw--blame document) "\n" t))
      (when (string-match "\\`\\([^:]*\\):[0-9]+ \\([0-9]+\\) " line)
        (let* ((name (match-string 1 line)) (end (+ at (string-to-number (match-string 2 line)))))
          (unless (member name names) (setq names (append names (list name))))
          (add-text-properties at end (list 'face (egw--colour names name) 'help-echo name) text)
          (setq at end))))
    (egw--show (format "*%s by whom*" (buffer-name)) text #'fundamental-mode)
    (setq header-line-format
          (mapcar (lambda (name) (propertize (format " %s " name) 'face (egw--colour names name))) names))))

;;; The mode

(defun egw--agent-for (file)
  "A name for the copy FILE: of the user, the machine, and the file's place on it."
  (let ((who (replace-regexp-in-string "[^a-zA-Z0-9_]" "_" (format "%s_%s" (user-login-name) (system-name)))))
    (format "%s-%s" (truncate-string-to-width who 25) (substring (md5 file) 0 6))))

(defun egw--visit (file)
  "Make the current buffer show the event FILE, and what was kept beside it."
  (let* ((seen (egw--seen file)) (document (egw--open (if seen (egw--bytes-of file) "")))
         (book (make-egw--book :document document :file file :agent (or egw-agent (egw--agent-for file)) :seen seen)))
    (egw--claim book)
    ;; What others store is taken in, so Emacs needn't ask whether the file changed.
    (clear-visited-file-modtime)
    (let ((inhibit-read-only t) (buffer-undo-list t) (buffer-file-name nil))
      (erase-buffer)
      (set-buffer-multibyte t)
      (insert (egw--text document)))
    (setf (egw--book-buffer book) (current-buffer) (egw--book-shown book) (egw--count document))
    (setq egw--book book buffer-undo-list nil buffer-auto-save-file-name nil buffer-file-coding-system 'utf-8-unix)
    (set-buffer-modified-p nil)
    (goto-char (point-min))))

(defun egw-visit ()
  "Show the text of the event file that this buffer visits, in the mode that its name without .egw has, or else in Text mode."
  (interactive)
  (when (file-remote-p buffer-file-name)
    (user-error "Visit a copy of it on this machine, and join this one by `egw-join-host'"))
  (let ((was-read-only buffer-read-only))
    (setq buffer-read-only t)
    (unless egw--book (egw--visit (file-truename buffer-file-name)))
    (setq buffer-read-only (or was-read-only (consp (egw--book-stopped egw--book)))))
  (let ((buffer-file-name (file-name-sans-extension buffer-file-name)))
    (set-auto-mode)
    (when (eq major-mode 'fundamental-mode) (text-mode)))
  (egw-mode 1))

(defun egw--write ()
  "Store the buffer's document as its file."
  (when egw--book
    (when (egw--book-stopped egw--book) (user-error "What is shown isn't what is recorded: M-x revert-buffer first"))
    (egw--compare egw--book)
    (egw--store egw--book)
    (clear-visited-file-modtime)
    (set-buffer-modified-p nil)
    t))

(defun egw--revert (&rest _)
  "Take in what others stored in the file.  Nothing that was typed goes, but for what the document refused."
  (let ((book egw--book) (egw--applying t) (inhibit-read-only t))
    (egw--check book)
    (egw--take-stored book)
    (when (and (egw--book-stopped book) (or (egw--book-kept book) (egw--claim book)))
      (save-restriction
        (widen)
        (let ((text (egw--text (egw--book-document book))))
          (with-temp-buffer
            (insert text)
            (let ((right (current-buffer)))
              (with-current-buffer (egw--book-buffer book) (replace-buffer-contents right))))))
      (when (< (egw--book-shown book) (egw--count (egw--book-document book))) (egw--spread book (egw--since book) nil))
      (setf (egw--book-stopped book) nil (egw--book-shown book) (egw--count (egw--book-document book)) (egw--book-own book) nil)
      (setq buffer-read-only nil buffer-undo-list nil)
      (egw--again))))

(defun egw--is-stale (&rest _)
  "Whether somebody else stored the file: `auto-revert-mode' asks."
  (and egw--book (not (equal (egw--seen (egw--book-file egw--book)) (egw--book-seen egw--book)))))

(defun egw--renamed ()
  "Go on with another copy where the buffer visits another event file; else its text is a plain one from now on."
  (cond ((not egw--book))
        ((and buffer-file-name (string-suffix-p ".egw" buffer-file-name))
         (let ((book egw--book) (file (file-truename buffer-file-name)))
           (egw--let-it-go book)
           (setf (egw--book-file book) file (egw--book-agent book) (egw--agent-for file) (egw--book-own book) nil
                 (egw--book-undone book) nil (egw--book-redone book) nil (egw--book-seen book) nil)
           (unless (egw--claim book) (setq buffer-read-only t))
           (add-hook 'write-file-functions #'egw--write nil t)))
        (t (egw-mode -1))))

(defun egw--close ()
  "Leave the peers.  What isn't stored stays in the file beside, and is taken in when the file is visited again."
  (when (and egw--book (eq (current-buffer) (egw--book-buffer egw--book)))
    (let ((book egw--book))
      (egw-leave)
      (when (egw--book-timer book) (cancel-timer (egw--book-timer book)))
      (egw--let-it-go book))))

(defun egw--close-all ()
  (dolist (buffer (buffer-list)) (with-current-buffer buffer (egw--close))))

(defvar egw-mode-map
  (let ((map (make-sparse-keymap)))
    (define-key map (kbd "C-c C-/") 'egw-undo)
    (define-key map (kbd "C-c C-_") 'egw-undo)
    map))

(define-minor-mode egw-mode
  "Keep a text and the document of its event file together.
Visit a file whose name ends with .egw; this mode can be ended, which leaves a plain text without a file."
  :lighter (:eval (format " egw[%d]" (if egw--book (length (egw--book-peers egw--book)) 0)))
  (cond ((not egw--book) (setq egw-mode nil) (user-error "Visit a file whose name ends with .egw"))
        (egw-mode
         (add-hook 'before-change-functions #'egw--before nil t)
         (add-hook 'after-change-functions #'egw--after nil t)
         (add-hook 'post-command-hook #'egw--after-command nil t)
         (add-hook 'write-file-functions #'egw--write nil t)
         (add-hook 'after-set-visited-file-name-hook #'egw--renamed nil t)
         (add-hook 'kill-buffer-hook #'egw--close nil t)
         (setq-local revert-buffer-function #'egw--revert buffer-stale-function #'egw--is-stale))
        (t (egw--close)
           (setq egw--book nil)
           (when (and buffer-file-name (string-suffix-p ".egw" buffer-file-name)) (set-visited-file-name nil)))))

(dolist (each '(egw--before egw--after egw--after-command egw--renamed egw--close)) (put each 'permanent-local-hook t))

(defun egw--again ()
  "A change of the major mode leaves the buffer's text and document together."
  (when egw--book (egw-mode 1)))

(add-hook 'after-change-major-mode-hook #'egw--again)
(add-hook 'kill-emacs-hook #'egw--close-all)
(add-to-list 'auto-coding-alist '("\\.egw\\'" . no-conversion))
(add-to-list 'auto-mode-alist '("\\.egw\\'" . egw-visit))

(provide 'egw)
;;; egw.el ends here
