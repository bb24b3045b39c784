;;; oc-gamhilon.el --- Citations of Org in any style, by Gamhilon -*- lexical-binding: t; -*-

;; SPDX-License-Identifier: MIT OR Apache-2.0
;; Version: 0.3.0
;; Package-Requires: ((emacs "28.1") (org "9.5"))
;; Keywords: bib, wp

;;; Commentary:

;; An export processor for the citations of Org 9.5.  In a document:
;;
;;     #+bibliography: references.bib
;;     #+cite_export: gamhilon apa
;;
;;     See [cite:@doe99 p. 4], and [cite/t:@roe00].
;;
;;     #+print_bibliography:
;;
;; and in the init file (require 'oc-gamhilon).  A style is a name or the path
;; of a file (docs/STYLES.md); files of references are those that the Python
;; package reads.  It writes HTML, LaTeX or text, as the back-end wants it.
;;
;; Styles of citations are those of oc-csl: none, `text' (t), `author' (a),
;; `noauthor' (na) and `year' (y), with the variants `bare' (b), `caps' (c) and
;; `bare-caps' (bc); and `nocite' (n).

;;; Code:

(require 'json)
(require 'oc)
(require 'ox)
(require 'seq)

(defgroup org-cite-gamhilon nil
  "Citations in any style, by Gamhilon."
  :group 'org-cite)

(defcustom org-cite-gamhilon-program '("python3" "-m" "gamhilon")
  "The command of the Python package, which writes citations."
  :type '(repeat string))

(defcustom org-cite-gamhilon-style "author-date"
  "The style of documents that tell none."
  :type 'string)

(defcustom org-cite-gamhilon-arguments nil
  "More arguments for the program, such as (\"--locales\" \"/srv/locales\").
Paths are whole: Emacs expands no ~ in them."
  :type '(repeat string))

(defcustom org-cite-gamhilon-style-sheet t
  "Whether a list in HTML brings the style sheet that lays it out."
  :type 'boolean)

(defconst org-cite-gamhilon--labels
  '(("page" "p." "pp." "p" "page" "pages")
    ("chapter" "chap." "chaps." "ch." "chapter" "chapters")
    ("section" "sec." "secs." "§" "§§" "section" "sections")
    ("volume" "vol." "vols." "volume" "volumes")
    ("figure" "fig." "figs." "figure" "figures")
    ("paragraph" "para." "paras." "¶" "¶¶" "paragraph" "paragraphs")
    ("line" "l." "ll." "line" "lines") ("verse" "v." "vv." "verse" "verses")
    ("note" "n." "nn." "note" "notes") ("issue" "no." "nos." "number" "numbers")
    ("part" "pt." "pts." "part" "parts") ("book" "bk." "bks." "book" "books")
    ("column" "col." "cols." "column" "columns")
    ("folio" "fol." "fols." "folio" "folios")
    ("opus" "op." "opp." "opus") ("sub-verbo" "s.v." "s.vv." "sub verbo"))
  "The kinds of locators, and how documents name them.")

(defconst org-cite-gamhilon--locator
  (let ((numbers "[[:alpha:]]?[0-9][[:alnum:].:/]*\\|[ivxlcdm]+\\>"))
    (concat "\\`[, ]*\\(?:"
            (regexp-opt (mapcan (lambda (label) (copy-sequence (cdr label)))
                                org-cite-gamhilon--labels)
                        t)
            "[  ]*\\)?\\(\\(?:" numbers "\\)\\(?:[ ]*[-–—,&]+[ ]*\\(?:" numbers "\\)\\)*\\)"))
  "A locator at the beginning of what stands behind a key.")

(defconst org-cite-gamhilon--raised "\\`\\(?:<[^>]*>\\)*<sup\\|\\`\\\\textsuperscript"
  "How a raised number begins, in HTML and in LaTeX.")

;;; What documents cite

(defun org-cite-gamhilon--text (data)
  "The text of DATA, a part of the parse tree, as the document has it."
  (org-trim (substring-no-properties (org-element-interpret-data data))))

(defun org-cite-gamhilon--locator-and-rest (suffix)
  "The locator in SUFFIX as members of a cite, and the rest of it."
  (let ((case-fold-search nil))
    (if (not (and (string-match org-cite-gamhilon--locator suffix)
                  (or (match-string 1 suffix)
                      (string-match-p "[0-9]" (match-string 2 suffix)))))
        (cons nil suffix)
      (let* ((told (match-string 1 suffix))
             (locator (match-string 2 suffix))
             (rest (substring suffix (match-end 0)))
             (kind (car (seq-find (lambda (label) (member told (cdr label)))
                                  org-cite-gamhilon--labels))))
        (cons `((locator . ,locator) (label . ,(or kind "page"))) rest)))))

(defun org-cite-gamhilon--cite (reference)
  "The cite of REFERENCE, as an alist."
  (let* ((prefix (org-cite-gamhilon--text (org-element-property :prefix reference)))
         (suffix (org-cite-gamhilon--text (org-element-property :suffix reference)))
         (found (org-cite-gamhilon--locator-and-rest suffix)))
    `((id . ,(org-element-property :key reference))
      (prefix . ,prefix)
      ,@(car found)
      (suffix . ,(cdr found)))))

(defun org-cite-gamhilon--cites (citation)
  "The cites of CITATION, whose own affixes are those of its first and its last."
  (let ((cites (mapcar #'org-cite-gamhilon--cite (org-cite-get-references citation)))
        (prefix (org-cite-gamhilon--text (org-element-property :prefix citation)))
        (suffix (org-cite-gamhilon--text (org-element-property :suffix citation))))
    (unless (string-empty-p prefix)
      (let ((place (assq 'prefix (car cites))))
        (setcdr place (org-trim (concat prefix " " (cdr place))))))
    (unless (string-empty-p suffix)
      (let ((place (assq 'suffix (car (last cites)))))
        (setcdr place (concat (cdr place) (if (string-match-p "\\`[[:alnum:]]" suffix) " " "")
                              suffix))))
    cites))

(defun org-cite-gamhilon--kind (citation info)
  "What is shown of CITATION in the export of INFO, as a symbol."
  (pcase (car (org-cite-citation-style citation info))
    ((or "text" "t") 'text)
    ((or "author" "a") 'author)
    ((or "noauthor" "na") 'noauthor)
    ((or "year" "y") 'year)
    ((or "nocite" "n") 'nocite)
    (_ 'whole)))

(defun org-cite-gamhilon--varied (text citation info)
  "TEXT of CITATION in the variant that it has in the export of INFO."
  (let* ((variant (cdr (org-cite-citation-style citation info)))
         (text (if (member variant '("bare" "b" "bare-caps" "bc"))
                   (org-cite-gamhilon--bare text)
                 text)))
    (if (member variant '("caps" "c" "bare-caps" "bc"))
        (org-cite-gamhilon--with-capital text)
      text)))

(defun org-cite-gamhilon--bare (text)
  "TEXT without the brackets around it."
  (seq-some (lambda (pair)
              (and (string-prefix-p (car pair) text)
                   (string-suffix-p (cdr pair) text)
                   (substring text (length (car pair)) (- (length text) (length (cdr pair))))))
            '(("(" . ")") ("[" . "]") ("{[}" . "{]}") ("" . ""))))

(defun org-cite-gamhilon--with-capital (text)
  "TEXT, whose first word begins with a capital: behind brackets, tags and links."
  (let ((case-fold-search nil))
    (if (string-match "\\`\\(?:<[^>]*>\\|\\\\hyperlink{[^}]*}{\\|[[({]\\)*[[:lower:]]" text)
        (let ((place (1- (match-end 0))))
          (concat (substring text 0 place) (upcase (substring text place (1+ place)))
                  (substring text (1+ place))))
      text)))

(defun org-cite-gamhilon--capital (cite)
  "CITE, whose prefix begins with a capital."
  (let ((prefix (cdr (assq 'prefix cite))))
    (cons (cons 'prefix (concat (upcase (substring prefix 0 (min 1 (length prefix))))
                                (substring prefix (min 1 (length prefix)))))
          (assq-delete-all 'prefix cite))))

(defun org-cite-gamhilon--requests (citation kind note)
  "What the program is asked for, so that CITATION is written as KIND.
NOTE is the number of the note that it begins, or in which it stands, or nil."
  (let* ((cites (mapcar (lambda (cite) (if note (cons (cons 'note (abs note)) cite) cite))
                        (org-cite-gamhilon--cites citation)))
         (cites (if (and note (> note 0))
                    (cons (org-cite-gamhilon--capital (car cites)) (cdr cites))
                  cites))
         (all (lambda (member) (list (mapcar (lambda (cite) (cons (cons member t) cite)) cites)))))
    (pcase kind
      ('author (funcall all 'author-only))
      ('noauthor (funcall all 'suppress-author))
      ('year (list (mapcar (lambda (cite)
                             `((suppress-author . t)
                               ,@(seq-remove (lambda (part) (memq (car part) '(locator label)))
                                             cite)))
                           cites)))
      ('nocite (funcall all 'hidden))
      ('text (mapcan (lambda (cite)
                       (list (list `((id . ,(cdr (assq 'id cite))) (author-only . t)))
                             (list (cons '(suppress-author . t) cite))))
                     cites))
      (_ (list cites)))))

;;; The program

(defun org-cite-gamhilon--form (info)
  "The form of what the back-end of INFO writes."
  (let ((backend (plist-get info :back-end)))
    (cond ((org-export-derived-backend-p backend 'html) "html")
          ((org-export-derived-backend-p backend 'latex) "latex")
          (t "text"))))

(defun org-cite-gamhilon--style (info)
  "The style of the document of INFO."
  (or (org-cite-bibliography-style info) org-cite-gamhilon-style))

(defun org-cite-gamhilon--arguments (info form citations style)
  "The arguments of the program for INFO, FORM, the file CITATIONS and STYLE."
  (let* ((files (or (plist-get info :bibliography)
                    (user-error "The document has no #+bibliography")))
         (language (or (plist-get info :language) "en"))
         (more (mapcan (lambda (file) (list "--references" file)) (copy-sequence (cdr files)))))
    `("--style" ,style
      ,@(unless (string-prefix-p "en" language) (list "--locale" language))
      ,@org-cite-gamhilon-arguments "--to" ,form ,@more ,(car files) ,citations)))

(defun org-cite-gamhilon--with-file (ending text function)
  "What FUNCTION gives of the path of a file with this ENDING and TEXT."
  (let ((path (make-temp-file "gamhilon" nil ending))
        (coding-system-for-write 'utf-8))
    (unwind-protect
        (progn (with-temp-file path (insert text))
               (funcall function path))
      (delete-file path))))

(defun org-cite-gamhilon--run (words document)
  "What the program prints with the arguments WORDS.
What it warns of is shown as messages. DOCUMENT has a path that they name,
and what stands for it."
  (org-cite-gamhilon--with-file
   "" ""
   (lambda (warnings)
     (with-temp-buffer
       (let* ((coding-system-for-read 'utf-8)
              (program org-cite-gamhilon-program)
              (status (apply #'call-process (car program) nil (list t warnings) nil
                             (append (cdr program) words)))
              (said (with-temp-buffer
                      (insert-file-contents warnings)
                      (org-trim (string-replace (car document) (cdr document)
                                                (buffer-string))))))
         (unless (equal status 0)
           (user-error "%s" said))
         (unless (string-empty-p said)
           (message "%s" said))
         (buffer-string))))))

(defun org-cite-gamhilon--call (command form requests info &optional style)
  "What COMMAND writes in FORM for REQUESTS, in the export of INFO.
STYLE is another style than that of the document."
  (org-cite-gamhilon--with-file
   ".json" (json-encode (vconcat (mapcar #'vconcat requests)))
   (lambda (citations)
     (org-cite-gamhilon--run
      (cons command (org-cite-gamhilon--arguments
                     info form citations (or style (org-cite-gamhilon--style info))))
      (cons citations (or (plist-get info :input-file) "the document"))))))

(defun org-cite-gamhilon--with-authors (lines form requests info)
  "LINES of REQUESTS in FORM with their authors, for the export of INFO.
A style of numbers or labels writes none: another style writes them."
  (let* ((is-author (lambda (request) (assq 'author-only (car request))))
         (asked (seq-filter is-author requests))
         (style (if asked
                    (org-cite-gamhilon--run
                     (list "org" "--names" (org-cite-gamhilon--style info)) '("\n" . " "))
                  "")))
    (if (string-empty-p style)
        lines
      (let ((authors (org-cite-gamhilon--with-file
                      ".csl" style
                      (lambda (path)
                        (org-cite-gamhilon--lines
                         (org-cite-gamhilon--call "cite" form asked info path)
                         (length asked))))))
        (seq-mapn (lambda (line request)
                    (if (funcall is-author request) (pop authors) line))
                  lines requests)))))

(defun org-cite-gamhilon--lines (text count)
  "The lines of TEXT, which are COUNT."
  (let ((lines (split-string (string-remove-suffix "\n" text) "\n")))
    (unless (= (length lines) count)
      (error "The program wrote %d citations of %d" (length lines) count))
    lines))

;;; What is exported

(defun org-cite-gamhilon--is-note (requests info)
  "Whether the style of INFO is one of notes.
It gives a citation of the first work of REQUESTS the number of a note then."
  (let* ((json-object-type 'alist)
         (json-array-type 'list)
         (asked (and requests `((((id . ,(cdr (assq 'id (caar requests)))))))))
         (answer (json-read-from-string (org-cite-gamhilon--call "cite" "json" asked info))))
    (and (assq 'note_number (car (alist-get 'citations answer))) t)))

(defun org-cite-gamhilon--note (citation kind info)
  "The number of the note of CITATION in INFO, or nil where KIND stays in the text.
It is put into one unless it stands in one, whose number is negative."
  (let ((note (org-cite-inside-footnote-p citation)))
    (cond (note
           (- (org-export-get-footnote-number note info)))
          ((memq kind '(whole text noauthor year))
           (org-cite-adjust-note citation info)
           (org-export-get-footnote-number (org-cite-wrap-citation citation info) info)))))

(defun org-cite-gamhilon--author-before (citation)
  "Put what is to show the author of CITATION before it, and give that."
  (let ((author (org-export-raw-string "")))
    (org-element-insert-before author citation)
    (org-element-put-property citation :gamhilon-author author)
    author))

(defun org-cite-gamhilon--pairs (citations notes info)
  "CITATIONS with their requests for INFO, in the order of asking.
With NOTES they are put into these, and an author in the text stays in the
sentence. Such authors come last: a note that follows one is no `Ibid.'."
  (let (pairs late)
    (dolist (citation citations)
      (let* ((kind (org-cite-gamhilon--kind citation info))
             (author (and notes (eq kind 'text) (not (org-cite-inside-footnote-p citation))
                          (org-cite-gamhilon--author-before citation)))
             (note (and notes (org-cite-gamhilon--note citation kind info)))
             (shown (cond (author 'noauthor)
                          ((and notes (eq kind 'text)) 'whole)
                          (t kind)))
             (pair (cons citation (org-cite-gamhilon--requests citation shown note))))
        (when author
          (push (cons author (org-cite-gamhilon--requests citation 'author nil)) late))
        (if (and notes (memq kind '(author nocite)))
            (push pair late)
          (push pair pairs))))
    (append (nreverse pairs) (nreverse late))))

(defun org-cite-gamhilon--put-authors (written info)
  "Put the authors of WRITTEN into the sentences of INFO that have them."
  (dolist (citation (org-cite-list-citations info))
    (let ((author (org-element-property :gamhilon-author citation)))
      (when author
        (let ((text (or (cadr (assq author written)) "")))
          (org-element-set-contents
           author (org-cite-gamhilon--exported
                   (org-cite-gamhilon--varied text citation info) info)))))))

(defun org-cite-gamhilon--answer (info)
  "What is written of the citations of INFO, as an alist, and their requests.
INFO keeps it."
  (or (plist-get info :cite-gamhilon)
      (let* ((citations (org-cite-list-citations info))
             (first (org-cite-gamhilon--pairs citations nil info))
             (notes (org-cite-gamhilon--is-note (apply #'append (mapcar #'cdr first)) info))
             (pairs (if notes (org-cite-gamhilon--pairs citations t info) first))
             (requests (mapcan (lambda (pair) (copy-sequence (cdr pair))) pairs))
             (form (org-cite-gamhilon--form info))
             (lines (org-cite-gamhilon--with-authors
                     (org-cite-gamhilon--lines
                      (org-cite-gamhilon--call "cite" form requests info) (length requests))
                     form requests info))
             (written (mapcar
                       (lambda (pair)
                         (let ((count (length (cdr pair))))
                           (prog1 (cons (car pair)
                                        (seq-remove #'string-empty-p (seq-take lines count)))
                             (setq lines (seq-drop lines count)))))
                       pairs))
             (answer `(,written (requests . ,requests) (notes . ,notes))))
        (org-cite-gamhilon--put-authors written info)
        (plist-put info :cite-gamhilon answer)
        answer)))

(defun org-cite-gamhilon--parts (citation info)
  "What is written of CITATION in INFO.
A note that leaves out its author has that where the style writes nothing else."
  (let ((written (car (org-cite-gamhilon--answer info))))
    (or (cdr (assq citation written))
        (cdr (assq (org-element-property :gamhilon-author citation) written)))))

(defun org-cite-gamhilon--joined (parts)
  "PARTS, each an author and then the rest of its cite, with spaces between.
Raised numbers have none before them."
  (pcase parts
    (`(,author ,rest . ,more)
     (let* ((is-raised (string-match-p org-cite-gamhilon--raised rest))
            (own (concat author (if is-raised "" " ") rest)))
       (if more (concat own ", " (org-cite-gamhilon--joined more)) own)))
    (_ (or (car parts) ""))))

(defun org-cite-gamhilon--without-stop (text)
  "TEXT without the full stop at its end."
  (replace-regexp-in-string "\\.\\([”’\"]?\\)\\'" "\\1" text))

(defun org-cite-gamhilon--goes-on-p (citation info)
  "Whether something stands behind CITATION in the note of INFO that has it."
  (and (alist-get 'notes (cdr (org-cite-gamhilon--answer info)))
       (org-export-get-next-element citation info)))

(defun org-cite-gamhilon--exported (text info)
  "TEXT of the program as the back-end of INFO wants it."
  (if (equal (org-cite-gamhilon--form info) "text")
      (org-export-data text info)
    text))

(defun org-cite-gamhilon-export-citation (citation _style _backend info)
  "Export CITATION in the export of INFO."
  (let* ((parts (org-cite-gamhilon--parts citation info))
         (text (org-cite-gamhilon--varied (org-cite-gamhilon--joined parts) citation info)))
    (org-cite-gamhilon--exported
     (if (org-cite-gamhilon--goes-on-p citation info) (org-cite-gamhilon--without-stop text) text)
     info)))

(defun org-cite-gamhilon-export-bibliography (_keys _files _style _props _backend info)
  "Export the reference list in the export of INFO."
  (let* ((form (org-cite-gamhilon--form info))
         (requests (alist-get 'requests (cdr (org-cite-gamhilon--answer info))))
         (text (org-cite-gamhilon--call "bibliography" form requests info)))
    (cond ((equal form "text")
           (mapconcat (lambda (line) (org-cite-gamhilon--exported line info))
                      (split-string text "\n" t) "\n\n"))
          ((and (equal form "html") org-cite-gamhilon-style-sheet)
           (concat "<style>\n" (org-cite-gamhilon--run '("css") '("\n" . " ")) "</style>\n"
                   text))
          (t text))))

(org-cite-register-processor 'gamhilon
  :export-citation #'org-cite-gamhilon-export-citation
  :export-bibliography #'org-cite-gamhilon-export-bibliography
  :cite-styles
  '((("text" "t") ("caps" "c"))
    (("author" "a") ("caps" "c"))
    (("noauthor" "na") ("bare" "b") ("caps" "c") ("bare-caps" "bc"))
    (("year" "y") ("bare" "b"))
    (("nocite" "n"))
    (("nil") ("bare" "b") ("caps" "c") ("bare-caps" "bc"))))

(provide 'oc-gamhilon)
;;; oc-gamhilon.el ends here
