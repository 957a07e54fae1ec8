# Escapes lines for a page: what is no ASCII character that is seen is a question mark.
s/[^ -~]/?/g
s/&/\&amp;/g
s/</\&lt;/g
s/>/\&gt;/g
s/"/\&quot;/g
s/'/\&#39;/g
