C     Melt of a glacier's surface by degree days, in fixed form.
C     Twelve months, five bands of height; a table of melt at the end.
      PROGRAM MELT
      INTEGER BANDS, MONTHS
      PARAMETER (BANDS = 5, MONTHS = 12)
      REAL TEMP(MONTHS), SNOW(MONTHS)
      REAL WATER(BANDS, MONTHS), PACK(BANDS)
      COMMON /SITE/ HEIGHT, LAPSE, FACTOR
      REAL HEIGHT, LAPSE, FACTOR
      INTEGER BAND, MONTH
      DATA TEMP /-9., -8., -5., -1., 3., 6., 8., 7.,
     1           4., 0., -5., -8./
      DATA SNOW /80., 75., 70., 60., 30., 10., 0., 0.,
     1           15., 40., 65., 80./
      HEIGHT = 2850.
      LAPSE = .0065
      FACTOR = 4.5
      DO 10 BAND = 1, BANDS
         PACK(BAND) = 0.
   10 CONTINUE
      DO 30 MONTH = 1, MONTHS
         DO 20 BAND = 1, BANDS
            CALL FALL(TEMP(MONTH), SNOW(MONTH), BAND, PACK(BAND))
            CALL THAW(TEMP(MONTH), BAND, PACK(BAND),
     +                WATER(BAND, MONTH))
   20    CONTINUE
   30 CONTINUE
      CALL ROUTE(WATER, BANDS, MONTHS)
      CALL REPORT(WATER, BANDS, MONTHS)
      STOP
      END

C     Temperature at the middle of a band.
      REAL FUNCTION ATBAND(TEMP, BAND)
      REAL TEMP
      INTEGER BAND
      COMMON /SITE/ HEIGHT, LAPSE, FACTOR
      REAL HEIGHT, LAPSE, FACTOR
C     Bands are 200 m high, and the third one lies at HEIGHT.
      ATBAND = TEMP - LAPSE * 200. * REAL(BAND - 3)
      RETURN
      END

C     What falls as snow stays on the band.
      SUBROUTINE FALL(TEMP, SNOW, BAND, PACK)
      REAL TEMP, SNOW, PACK
      INTEGER BAND
      REAL ATBAND, HERE
      HERE = ATBAND(TEMP, BAND)
      IF (HERE .LT. 1.) THEN
         PACK = PACK + SNOW
      ELSE IF (HERE .LT. 3.) THEN
         PACK = PACK + SNOW * (3. - HERE) / 2.
      END IF
      RETURN
      END

C     What thaws in a month of thirty days: snow first, then ice.
      SUBROUTINE THAW(TEMP, BAND, PACK, WATER)
      REAL TEMP, PACK, WATER
      INTEGER BAND
      COMMON /SITE/ HEIGHT, LAPSE, FACTOR
      REAL HEIGHT, LAPSE, FACTOR
      REAL ATBAND, HERE, COULD, LEFT
      HERE = ATBAND(TEMP, BAND)
      WATER = 0.
      IF (HERE .LE. 0.) RETURN
      COULD = 30. * FACTOR * HERE
      IF (COULD .LE. PACK) THEN
         PACK = PACK - COULD
         WATER = COULD
         RETURN
      END IF
      LEFT = COULD - PACK
C     Ice is darker than snow and thaws faster.
      WATER = PACK + 1.6 * LEFT
      PACK = 0.
      RETURN
      END

C     Water runs down: a tenth of each band's goes to the next month.
      SUBROUTINE ROUTE(WATER, BANDS, MONTHS)
      INTEGER BANDS, MONTHS
      REAL WATER(BANDS, MONTHS)
      INTEGER BAND, MONTH
      REAL HELD
      DO 20 BAND = 1, BANDS
         HELD = 0.
         DO 10 MONTH = 1, MONTHS
            HELD = HELD + WATER(BAND, MONTH)
            WATER(BAND, MONTH) = .9 * HELD
            HELD = .1 * HELD
   10    CONTINUE
   20 CONTINUE
      RETURN
      END

C     Sums over the bands, month by month.
      SUBROUTINE TOTAL(WATER, BANDS, MONTHS, SUMS)
      INTEGER BANDS, MONTHS
      REAL WATER(BANDS, MONTHS), SUMS(MONTHS)
      INTEGER BAND, MONTH
      DO 20 MONTH = 1, MONTHS
         SUMS(MONTH) = 0.
         DO 10 BAND = 1, BANDS
            SUMS(MONTH) = SUMS(MONTH) + WATER(BAND, MONTH)
   10    CONTINUE
   20 CONTINUE
      RETURN
      END

C     The largest of so many numbers.
      REAL FUNCTION PEAK(VALUES, MANY)
      INTEGER MANY, K
      REAL VALUES(MANY)
      PEAK = VALUES(1)
      DO 10 K = 2, MANY
         IF (VALUES(K) .GT. PEAK) PEAK = VALUES(K)
   10 CONTINUE
      RETURN
      END

C     The table that is published.
      SUBROUTINE REPORT(WATER, BANDS, MONTHS)
      INTEGER BANDS, MONTHS
      REAL WATER(BANDS, MONTHS)
      REAL SUMS(12), TABLE(12), PEAK
      INTEGER MONTH
C     SUMS is filled and never read by its name; TABLE is read and
C     never filled by its name. They are the same storage, so a
C     profile that misses the next line calls SUMS unused.
      EQUIVALENCE (SUMS(1), TABLE(1))
      CALL TOTAL(WATER, BANDS, MONTHS, SUMS)
      DO 10 MONTH = 1, MONTHS
         WRITE (*, 900) MONTH, TABLE(MONTH)
   10 CONTINUE
      WRITE (*, 910) PEAK(TABLE, MONTHS)
      RETURN
  900 FORMAT (I4, F10.1)
  910 FORMAT ('PEAK', F10.1)
      END
